// Numbers and times: messages of docs/CONNECTING.md on both sides of the gateway.
#define DOCTEST_CONFIG_IMPLEMENT_WITH_MAIN
#include <doctest/doctest.h>

#include "check.h"
#include "common/frame.h"
#include "common/moment.h"
#include "firms/on_behalf.h"
#include "session/wire.h"

#include <stdexcept>

namespace gateway::tests {

namespace {

// What for_venue() gives, with bars; `none` where it gives nothing.
std::string given(const std::string &body, std::uint32_t number) {
    const auto frame = for_venue(framed(with_soh(body)), number);
    return frame ? with_bars(*frame) : "none";
}

// The documents' example of a quote, as an engine sends it: other numbers, microseconds, the
// session's fields; and as the venue is to get it.
TEST_CASE("a quote") {
    const std::string venue =
        "8=FIXT.1.1|9=109|35=S|49=DLR1|56=VENUE|34=1|52=20250314-09:00:10.000|50=T1|131=R1|117=a1|"
        "48=BONDA0000001|22=4|133=99.50390625|10=039|";
    same(venue,
         given("35=S|49=DLR1|56=VENUE|34=1|52=20250314-09:00:10.000|50=T1|131=R1|117=a1|"
               "48=BONDA0000001|22=4|133=99.50390625|",
               1),
         "a quote as it is");
    same(venue,
         given("35=S|49=DLR1|56=VENUE|34=712|43=Y|52=20250314-09:00:10.000123|"
               "122=20250314-09:00:09|97=Y|50=T1|131=R1|117=a1|48=BONDA0000001|22=4|"
               "133=99.50390625|",
               1),
         "a quote of an engine");
}

TEST_CASE("every byte") {
    for (int byte = 0; byte < 256; ++byte) {
        if (byte == 1) {
            continue;
        }
        const std::string field = std::string("58=a") + static_cast<char>(byte) + "z\x01";
        const std::string head = with_soh("35=Z|49=F|56=VENUE|34=9|52=20250314-09:00:10|");
        const auto frame = for_venue(framed(head + field), 3);
        check(frame && frame->find(field) != std::string::npos,
              fmt::format("58 with the byte {}", byte));
    }
}

// 4,096 bytes are a frame, and one more is none: the venue's number may have more digits than the
// firm's.
TEST_CASE("the longest") {
    const std::string begin = "35=Z|49=F|56=VENUE|34=1|52=20250314-09:00:10.000|58=";
    const std::size_t text = 4071 - (begin + "|").size();
    const std::string body = begin + std::string(text, 'x') + "|";
    same(longest_frame, given(body, 1).size(), "the longest");
    same<std::string>("none", given(body, 10), "one byte more");
}

TEST_CASE("cancel of one that is gone") {
    same<std::string>(
        "8=FIXT.1.1|9=64|35=Z|49=DLR2|56=VENUE|34=3|52=20250314-09:00:45.000|50=T2|298=4|10=024|",
        with_bars(cancel_of_all({"DLR2", "T2", 3, "20250314-09:00:45.000"})), "a cancel of all");
}

// What a session keeps of a message of the venue, from 35 to the field before 10.
std::string kept(const std::string &frame, std::uint32_t number, std::uint64_t refers_to,
                 ToldField told = {}) {
    const std::string text = with_bars(for_wire(with_soh(frame), number, refers_to, told));
    const std::size_t begin = text.find("|35=") + 1;
    return text.substr(begin, text.rfind("|10=") + 1 - begin);
}

TEST_CASE("to firms") {
    same<std::string>("35=AI|1181=2|131=R1|117=a1|60=20250314-09:00:10.000|297=0|",
                      kept("8=FIXT.1.1|9=73|35=AI|49=VENUE|56=DLR1|34=2|52=20250314-09:00:10.000|"
                           "131=R1|117=a1|297=0|10=207|",
                           2, 5),
                      "an acceptance");
    same<std::string>(
        "35=R|1181=1|131=R1|146=1|55=[N/A]|48=BONDA0000001|22=4|54=1|38=2000000|"
        "126=20250314-09:05:00.000|60=20250314-09:00:00.000|453=1|448=INV1|447=D|452=13|",
        kept("8=FIXT.1.1|9=165|35=R|49=VENUE|56=DLR1|34=1|52=20250314-09:00:00.000|131=R1|146=1|"
             "55=[N/A]|48=BONDA0000001|22=4|54=1|38=2000000|126=20250314-09:05:00.000|453=1|"
             "448=INV1|447=D|452=13|10=216|",
             1, 5),
        "a request, whose 60 is in its group");
    same<std::string>("35=3|1181=6|45=31|371=50|372=Z|373=1|60=20250314-09:01:10.000|",
                      kept("8=FIXT.1.1|9=76|35=3|49=VENUE|56=DLR1|34=6|52=20250314-09:01:10.000|"
                           "45=4|371=50|372=Z|373=1|10=010|",
                           6, 31),
                      "a Reject names the session's number");
}

// Whether a message is refused that can't be translated.
bool is_refused(const std::string &frame, std::uint32_t number, ToldField told = {}) {
    try {
        kept(frame, number, 5, told);
        return false;
    } catch (const std::runtime_error &) {
        return true;
    }
}

// What is told beside a message stands behind all its fields, and never twice.
TEST_CASE("told beside") {
    const std::string late = "8=FIXT.1.1|9=72|35=AI|49=VENUE|56=DLR1|34=5|"
                             "52=20250314-09:01:05.000|117=a2|297=5|300=4|10=139|";
    same<std::string>("35=AI|1181=5|117=a2|60=20250314-09:01:05.000|297=5|300=4|58=too late|",
                      kept(late, 5, 5, {58, "too late"}), "a reason");
    same<std::string>(
        "35=AG|1181=10|131=B|658=1|146=1|55=[N/"
        "A]|48=BONDC0000003|22=4|60=20250314-09:02:00.000|58=x|",
        kept("8=FIXT.1.1|9=102|35=AG|49=VENUE|56=INV1|34=10|52=20250314-09:02:00.000|131=B|658=1|"
             "146=1|55=[N/A]|48=BONDC0000003|22=4|10=234|",
             10, 5, {58, "x"}),
        "a reason behind the group of a request");
    check(is_refused("8=FIXT.1.1|9=93|35=AI|49=VENUE|56=INV1|34=8|52=20250314-09:00:50.000|693=h1|"
                     "131=A|117=Q2|297=5|300=4|58=Gone|10=076|",
                     8, {58, "too late"}),
          "a message is told two reasons");
}

TEST_CASE("none of the venue") {
    const std::string right = "8=FIXT.1.1|9=72|35=AI|49=VENUE|56=DLR1|34=5|"
                              "52=20250314-09:01:05.000|117=a2|297=5|300=4|10=139|";
    check(!is_refused(right, 5), "a message of the venue is refused");
    check(is_refused(right.substr(0, right.size() - 4) + "140|", 5), "a wrong sum");
    check(is_refused("8=FIXT.1.1|9=5|35=0|10=163|", 5), "a frame without a header");
}

TEST_CASE("moments") {
    same<std::string>("09:05:00.007", text_of(Moment{32700007}), "a moment");
    check(moment_of("23:59:59.999") == Moment{Moment::last}, "the last moment");
    for (const char *text : {"24:00:00.000", "23:60:00.000", "23:59:60.000", "9:05:00.000", ""}) {
        check(!moment_of(text), fmt::format("`{}` is a moment", text));
    }
}

} // namespace

} // namespace gateway::tests
