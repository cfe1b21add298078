// What an operator's commands do to a day that is open, at one venue or at two: what they answer,
// what firms may do from then on, and what the log has of them.
#define DOCTEST_CONFIG_IMPLEMENT_WITH_MAIN
#include <doctest/doctest.h>

#include "health/disk_reserve.h"
#include "open_market.h"
#include "operator/admin_stream.h"
#include "recovery/accept_loss.h"

#include <algorithm>
#include <fstream>
#include <optional>
#include <string>
#include <string_view>

#include <fmt/format.h>
#include <fmt/ranges.h>
#include <unistd.h>

namespace gateway::tests {

namespace {

// The day ends, and each of these words stands in a line of its log.
void ends_with(Market &market, const Words &all) {
    market.end();
    const Words lines = market.lines();
    for (const std::string &words : all) {
        CHECK_MESSAGE(has_line(lines, words), words);
    }
}

} // namespace

TEST_CASE("a firm is suspended, and goes on") {
    Market market;
    CHECK(market.asks({"suspend", "NONE", "--because", "x"}) ==
          "error\nthe venue has no firm NONE: `firms` lists them\n");
    CHECK(market.asks({"suspend", "DLR1", "--because", "a call"}) ==
          "ok\nDLR1 is logged out and refused, and what it had open is taken back, until `resume "
          "DLR1`\n");
    CHECK(market.has_firm("DLR1", "\"messages\": 1, "));
    CHECK(market.has_firm("DLR1", "\"set\": \"suspended\""));
    CHECK(market.has_firm("DLR2", "\"set\": \"\""));
    CHECK(market.has({"firm", "DLR1"}, "\"suspended\"", "\"value\": true"));
    CHECK(denial_of_quote(market) != "");
    CHECK(market.asks({"suspend", "INV1", "--because", "a call"}).starts_with(ok));
    CHECK(market.asks({"resume", "DLR1"}) == "ok\nDLR1 may log on again\n");
    CHECK(market.has_firm("DLR1", "\"set\": \"\""));
    CHECK(denial_of_quote(market) == "");
    ends_with(market, {"# act ann(7) suspend DLR1 because=\"a call\"", "# act ann(7) resume DLR1",
                       "|35=Z|49=DLR1|56=VENUE|34=1|", "|50=T1|298=4|"});
    CHECK_FALSE(has_line(market.lines(), "49=INV1"));
    CHECK(market.told("operator act=\"ann(7) suspend DLR1\" because=\"a call\"") == 1);
}

// In the name of its first trader, one message for each request, under the firm's next numbers.
TEST_CASE("what an investor has open is passed") {
    Market market;
    tell_of(market, "R1", '0');
    tell_of(market, "R2", '0');
    tell_of(market, "R3", '0', "INV2");
    CHECK(market.asks({"suspend", "INV1", "--because", "a call"}).starts_with(ok));
    CHECK(market.has_firm("INV1", "\"messages\": 2, "));
    CHECK(market.has_firm("INV2", "\"messages\": 0, "));
    CHECK(market.has_firm("INV2", "\"set\": \"\""));
    ends_with(market, {"|35=AJ|49=INV1|56=VENUE|34=1|", "|50=V1|693=gateway-1|694=6|131=R1|",
                       "|35=AJ|49=INV1|56=VENUE|34=2|", "|50=V1|693=gateway-2|694=6|131=R2|"});
    CHECK_FALSE(has_line(market.lines(), "131=R3"));
}

// The limits of the venue, of a bond, of the clock and of the disk do not count for it.
TEST_CASE("what takes something back is taken while nothing else is") {
    Market market;
    CHECK(market.asks({"halt", "--because", "x"}).starts_with(ok));
    market.leader().day().clock_is_right = false;
    CHECK(denial_of_quote(market) != "");
    CHECK(denial_of(market, "DLR1", "Z", "298=4|") == "");
    CHECK(denial_of(market, "DLR1", "AG", "131=R1|658=99|") == "");
    CHECK(denial_of(market, "INV1", "AJ", "693=p1|694=6|131=R1|") == "");
    CHECK(denial_of(market, "INV1", "D", "11=o1|") ==
          "the venue takes no messages of this type (MsgType, 35)");
}

TEST_CASE("a halt, of the venue or of a bond") {
    Market market;
    CHECK(market.has_state("\"state\": \"open\", \"venue\": \"\""));
    CHECK(market.has_state("\"firms\": 4, \"logged_on\": 0, "));
    CHECK(market.has_state("\"takes_business\": true, \"halted\": \"no\""));
    CHECK(market.has_state("\"days_without_copy\": \"no [copies]\", \"days_without_seal\": \"no "
                           "keeper\", \"restart_goes_well\": false"));
    CHECK(market.asks({"halt", "--bond", "NONE", "--because", "x"}) ==
          "error\nthe venue has no bond NONE\n");
    CHECK(market.asks({"halt", "--bond", "BONDA0000001", "--because", "x"}) ==
          "ok\nno request, quote or hit of BONDA0000001 is taken until `resume`; cancels, declines "
          "and "
          "passes are\n");
    CHECK(market.has_state("\"takes_business\": true, \"halted\": \"BONDA0000001\""));
    CHECK(denial_of_quote(market) != "");
    CHECK(market.asks({"halt", "--because", "y"}) ==
          "ok\nno request, quote or hit is taken until `resume`; cancels, declines and passes "
          "are\n");
    CHECK(market.has_state("\"takes_business\": false, \"halted\": \"yes\""));
    CHECK(market.asks({"resume", "--bond", "BONDA0000001"}) ==
          "ok\nBONDA0000001 goes on, but for this:\nan operator has halted the venue\n");
    CHECK(market.asks({"resume"}) == "ok\nthe venue goes on\n");
    CHECK(denial_of_quote(market) == "");
    ends_with(market, {"# act ann(7) halt --bond BONDA0000001 because=\"x\""});
}

TEST_CASE("a firm's limits and counts") {
    Market market;
    CHECK(market.asks({"limit", "INV1", "day_bytes=70000"}) ==
          "ok\nINV1 has day_bytes=70000 from now on, for this day\n");
    CHECK(market.has_firm("INV1", "\"day_bytes_limit\": 70000, \"set\": \"day_bytes=70000\""));
    CHECK(market.has_firm("DLR1", "\"day_bytes_limit\": 1073741824"));
    CHECK(market.has({"limit", "INV1"}, "\"day_bytes\"", "\"value\": 70000, \"set\": true"));
    CHECK(market.has({"limit", "INV1"}, "\"messages_burst\"", "\"set\": false"));
    CHECK(market.asks({"limit", "INV1", "day_bytes=configured"}).starts_with(ok));
    CHECK(market.has_firm("INV1", "\"day_bytes_limit\": 1073741824, \"set\": \"\""));
    for (const char *number : {"00500", "000000000000500"}) {
        CHECK(market.asks({"limit", "INV1", fmt::format("messages_burst={}", number)}) ==
              "ok\nINV1 has messages_burst=500 from now on, for this day\n");
    }
    for (const char *wrong : {"499", "1073741825", "x", "", "-1", "1000000000000000"}) {
        CHECK(market.asks({"limit", "INV1", fmt::format("messages_burst={}", wrong)}) ==
              "error\nmessages_burst is a number from 500 to 1073741824, or `configured`\n");
    }
    CHECK(market.asks({"limit", "INV1", "x=1"}) ==
          "error\nthere is no limit `x`: the limits are day_bytes, messages_per_second, "
          "messages_burst, bytes_per_second, bytes_burst, resends_per_second, resends_burst\n");
    CHECK(market.asks({"limit", "INV1", "day_bytes"}).starts_with("error\nusage: limit FIRM"));
    CHECK(denial_of_quote(market) == "");
    CHECK(denial_of(market, "DLR1", "AJ", "693=p1|694=6|131=R1|") == "");
    CHECK(market.has({"firm", "DLR1"}, "\"quotes\"", "\"value\": 1,"));
    CHECK(market.has({"firm", "DLR1"}, "\"requests\"", "\"value\": 0,"));
    CHECK(market.has({"firm", "DLR1"}, "\"refusals\"", "\"value\": 0,"));
    CHECK(market.has({"firm", "DLR1"}, "\"messages\"", "\"value\": 2,"));
    CHECK(market.has({"firm", "DLR1"}, "\"uncertified\"", "\"value\": false"));
    CHECK(market.has({"firm", "DLR1"}, "\"messages_burst\"", "\"value\": \"\", \"limit\": "));
    CHECK(market.asks({"firm", "NONE"}) ==
          "error\nthe venue has no firm NONE: `firms` lists them\n");
}

constexpr const char *not_answered_yet =
    "error\nthe venue has not answered yet what came before: try again\n";

// What is answered once the venue has answered what came before, for which a command waits three
// seconds: a venue on a busy machine may take longer, and then the operator asks again.
std::string asks_once_answered(Market &market, const Words &words) {
    std::string answer;
    comes_true([&] {
        answer = market.asks(words);
        return answer != not_answered_yet;
    });
    return answer;
}

// One that is gone has its quotes cancelled where its credentials say so.
TEST_CASE("quotes are taken back") {
    Market market;
    CHECK(market.asks({"cancel", "INV1", "--because", "x"}) ==
          "error\nINV1 is an investor, and has no quotes\n");
    CHECK(market.asks({"cancel", "DLR1", "--trader", "T3", "--because", "x"}) ==
          "error\nDLR1 has no trader T3: its traders are T1, T2\n");
    CHECK(asks_once_answered(market, {"cancel", "DLR1", "--trader", "T2", "--because", "x"}) ==
          "ok\nthe quotes that T2 of DLR1 sent are cancelled; the firm is told as if it had "
          "cancelled them\n");
    CHECK(market.has_firm("DLR1", "\"messages\": 0, "));
    CHECK(market.asks({"cancel", "DLR2", "--because", "x"}) ==
          "ok\nall quotes of DLR2 are cancelled; the firm is told as if it had cancelled them\n");
    CHECK(market.has_firm("DLR2", "\"messages\": 1, "));
    for (const SessionStart &start : market.leader().session_starts()) {
        start.host->logged_on(start.firm);
        start.host->logged_off(start.firm);
    }
    CHECK(market.has_firm("DLR1", "\"messages\": 1, "));
    CHECK(market.has_firm("DLR2", "\"messages\": 1, "));
    ends_with(market, {"|50=T3|298=4|", "|50=T2|298=4|"});
    CHECK(market.told("cancel of all firm=DLR1 trader=T2") == 1);
}

TEST_CASE("quotes of one trader are taken back one by one") {
    Market market;
    tell_of_quote(market, "q1", "R1", "T1");
    tell_of_quote(market, "q2", "R2", "T2");
    tell_of_quote(market, "q3", "R3", "T1");
    CHECK(asks_once_answered(market, {"cancel", "DLR1", "--trader", "T1", "--because", "x"})
              .starts_with(ok));
    CHECK(market.has_firm("DLR1", "\"messages\": 2, "));
    ends_with(market,
              {"# act ann(7) cancel DLR1 --trader T1 because=\"x\"", "|35=Z|49=DLR1|56=VENUE|34=1|",
               "|50=T1|298=5|117=q1|", "|35=Z|49=DLR1|56=VENUE|34=2|", "|50=T1|298=5|117=q3|"});
    CHECK_FALSE(has_line(market.lines(), "117=q2"));
}

// Three seconds, twice. By the name of one trader it is not known what is open; one message that
// ends all needs to know nothing; and a suspension passes what is known.
TEST_CASE("quotes are taken back while the venue is silent") {
    Market market;
    tell_of_quote(market, "q1", "R1", "T1");
    tell_of(market, "R1", '0');
    market.has_venue_wait(true);
    CHECK(denial_of_quote(market) == "");
    CHECK(market.asks({"cancel", "DLR1", "--trader", "T1", "--because", "x"}) == not_answered_yet);
    CHECK(market.has_firm("DLR1", "\"messages\": 1, "));
    CHECK(market.asks({"cancel", "DLR1", "--because", "x"}).starts_with(ok));
    CHECK(market.has_firm("DLR1", "\"messages\": 2, "));
    CHECK(market.asks({"suspend", "INV1", "--because", "x"}).starts_with(ok));
    CHECK(market.has_firm("INV1", "\"messages\": 1, "));
    market.has_venue_wait(false);
    CHECK(asks_once_answered(market, {"cancel", "DLR1", "--trader", "T1", "--because", "x"})
              .starts_with(ok));
    ends_with(market, {"|50=T1|298=5|117=q1|", "|694=6|131=R1|"});
}

TEST_CASE("a trade is voided once") {
    Market market;
    const std::string name = today() + "-INV1-DLR1-1";
    const auto bust = [&](const std::string &trade) {
        return market.asks({"bust", trade, "--because", "by phone"});
    };
    CHECK(bust("20000101-INV1-DLR1-1") == "error\n20000101-INV1-DLR1-1 is of another day than " +
                                              today() + ": a trade is voided on its own day\n");
    CHECK(bust(today() + "-INV1-NONE-1") == "error\nno venue has both INV1 and NONE\n");
    CHECK(bust(today() + "-NONE-DLR1-1") == "error\nno venue has both NONE and DLR1\n");
    CHECK(bust(name) == "error\nthere is no trade " + name + " today\n");
    market.leader().day().trades.add(name);
    CHECK(market.asks({"bust", name, "--because", std::string(200, 'x')})
              .starts_with("error\nthe act's line in the log would have "));
    CHECK(bust(name) ==
          "ok\n" + name + " is void: the record says so, and no firm is sent anything\n");
    CHECK(bust(name) == "error\n" + name + " is void already: mireseason-audit acts says why\n");
    ends_with(market, {"# act ann(7) bust " + name + " because=\"by phone\""});
}

TEST_CASE("a clock that was set is accepted") {
    Market market;
    CHECK(market.asks({"clock", "accept"}) ==
          "error\nthe clock is not in doubt: requests and quotes are taken\n");
    VenueDay &day = market.leader().day();
    day.clock_is_right = false;
    CHECK(market.gateway().halts() ==
          Words{"no request and no quote is taken, since the clock was set: mireseason-admin clock "
                "accept"});
    CHECK(market.has_state("\"takes_business\": false, \"halted\": \"no\""));
    CHECK(denial_of_quote(market) != "");
    CHECK(market.asks({"clock", "accept"}) == "ok\nrequests and quotes are taken again\n");
    CHECK(day.clock_is_right);
    CHECK(denial_of_quote(market) == "");
}

TEST_CASE("what can't be read again stays") {
    Market market;
    CHECK(market.asks({"reload"})
              .starts_with("error\ncredentials and certificates stay as they were: "));
    ends_with(market, {"# act ann(7) reload refused"});
}

namespace {

// A market whose day ends between two looks at it.
class EndingMarket final : public AdminScene {
  public:
    EndingMarket(Market &market, int looks) : market_(market), looks_(looks) {}

    HeldDay hold_day() override { return looks_-- > 0 ? market_.hold_day() : HeldDay{}; }
    std::string waits_for() override { return market_.waits_for(); }
    std::string accept_loss(const std::vector<Act> &acts) override {
        return market_.accept_loss(acts);
    }
    NextDay next_day() override { return market_.next_day(); }
    Beside beside() override { return market_.beside(); }

  private:
    Market &market_;
    int looks_;
};

} // namespace

// The act is in the log by then, and no refusal of it is: nobody has looked at the files.
TEST_CASE("what is not read again before the day ends") {
    Market market;
    EndingMarket ending(market, 1);
    CHECK(answer_to(ending, "ann(7)", "1 text reload") ==
          "error\nthe files were not read within 5 s: the day ends, or its log does not answer\n");
    ends_with(market, {"# act ann(7) reload"});
    CHECK_FALSE(has_line(market.lines(), "reload refused"));
}

// ---------------------------------------------------------------- what an operator is told

TEST_CASE("which firms are new on the next day, and which are gone") {
    Market market;
    market.next = {"20261201", "07:00", "17:00", {Config()}, {}};
    market.next.configs[0].firms.names = {"NEW1", "DLR1", "NEW2", "INV1"};
    CHECK(market.asks({"next-day"}, true) ==
          "ok\n{\"said\": \"the files are right\", \"rows\": [{\"date\": \"20261201\", "
          "\"venue\": \"\", \"opens\": \"07:00\", \"ends\": \"17:00\", \"firms\": 4, "
          "\"new_firms\": \"NEW1 NEW2\", \"firms_gone\": \"DLR2 INV2\"}]}\n");
}

TEST_CASE("what lies beside the day") {
    const auto change = [](Config &config) {
        config.copies = "/copies";
        config.sealed = "/sealed";
    };
    Market market({""}, change);
    market.around.days_without_copy = 3;
    market.around.days_without_seal = 4;
    market.around.restart = {"one", "two"};
    market.around.restart_goes_well = true;
    CHECK(market.has_state("\"days_without_copy\": 3, \"days_without_seal\": 4, "
                           "\"restart_goes_well\": true"));
    CHECK(market.asks({"status"}).starts_with("ok\none\ntwo\nstate "));
    market.around.days_without_seal.reset();
    CHECK(market.has_state("\"days_without_seal\": \"not known: the disk does not answer\""));
}

TEST_CASE("a disk without the room that is held back") {
    const auto change = [](Config &config) {
        config.disk = config.sqlite.parent_path();
        config.reserve = std::uint64_t{1} << 62;
    };
    Market market({""}, change);
    CHECK(market.has_state("\"takes_business\": false, \"halted\": \"no\""));
    CHECK(market.has_state("\"log_disk_reserve_bytes\": 4611686018427387904, "
                           "\"log_disk_reserve_reached\": true"));
    CHECK(market.asks({"resume"}) ==
          "ok\nthe venue goes on, but for this:\nno request and no quote is taken, until there is "
          "room on the log's disk\n");
    CHECK(denial_of_quote(market) != "");
}

TEST_CASE("who is logged on, and from where") {
    Market market;
    SessionHost &host = market.host("DLR1");
    const std::uint32_t first = host.logon_accepted("DLR1", {"192.0.2.1:4001", "", false});
    CHECK(market.has_firm("DLR1", "\"address\": \"192.0.2.1:4001\""));
    CHECK(market.has({"firm", "DLR1"}, "\"address\"", "\"value\": \"192.0.2.1:4001\""));
    CHECK(market.has_firm("DLR2", "\"logged_on\": \"\", \"address\": \"\""));
    CHECK(market.has_state("\"firms\": 4, \"logged_on\": 1, "));
    const std::uint32_t second = host.logon_accepted("DLR1", {"192.0.2.2:4002", "", false});
    host.connection_ended("DLR1", first, "late");
    CHECK(market.has_firm("DLR1", "\"address\": \"192.0.2.2:4002\""));
    host.connection_ended("DLR1", second, "over");
    CHECK(market.has_firm("DLR1", "\"logged_on\": \"\", \"address\": \"\""));
    CHECK(market.has_state("\"firms\": 4, \"logged_on\": 0, "));
}

// Outside of the log's database, less than a second behind its entries. The venue answers in its
// own time, so the last quote is waited for first: in the log a firm's messages to the venue are
// numbered from 1. Connections have seals of their own.
TEST_CASE("up to which entry the log is signed") {
    Market market;
    for (int count = 0; count < 5; ++count) {
        CHECK(denial_of_quote(market) == "");
    }
    REQUIRE(comes_true([&] { return has_line(market.lines(), "|35=S|49=DLR1|56=VENUE|34=5|"); }));
    const std::size_t last = market.entries().size();
    CHECK(comes_true([&] {
        return market.asks({"status"}, true).find(fmt::format("\"signed_entry\": {},", last)) !=
               std::string::npos;
    }));
    CHECK(market.has_state(fmt::format("\"entries\": {},", last)));
}

// ---------------------------------------------------------------- the day's end

TEST_CASE("a day without a request ends at once") {
    Market market;
    CHECK(market.asks({"end-day"}) ==
          "ok\nno new request is taken; none is open, so the day ends now\n");
    CHECK_FALSE(market.ended());
    CHECK(market.told("stop cause=\"the operator has ended the day\"") == 1);
    CHECK(market.has_signed_end());
    CHECK(market.asks({"firms"}) == "error\nthis gateway does not speak: it follows another one, "
                                    "begins or ends; ask the one that does\n");
    CHECK(market.asks({"status"}) ==
          "ok\nstate  not open\nfor    it follows another gateway, begins or ends\n");
}

TEST_CASE("a day ends once its requests have ended") {
    Market market;
    tell_of(market, "R1", '0');
    CHECK(market.asks({"end-day"}) ==
          "ok\nno new request is taken; the day ends once these 1 have ended\n"
          "venue     -\nfirm      INV1\nrequest   R1\naccepted  09:00:00.000\n");
    CHECK(market.has_state("\"open_requests\": 1, \"operator_ends_day\": true, "));
    CHECK(market.has_state("\"takes_business\": false, \"halted\": \"no\""));
    const Taken late =
        taken_of(market, "INV1", "R", "131=R2|48=BONDA0000001|22=4|126=20250314-10:00:00|");
    CHECK(late.text != "");
    CHECK(late.id == "R2");
    CHECK_FALSE(market.leader().has_operator_ended());
    tell_of(market, "R1", '7');
    CHECK_FALSE(market.ended());
    CHECK(market.told("left without a notice firm=INV1 request=\"R1\"") == 0);
}

TEST_CASE("a day ends now, and says what is left") {
    Market market;
    for (int number = 1; number <= 102; ++number) {
        tell_of(market, fmt::format("R{:03}", number), '0');
    }
    CHECK(market.asks({"end-day", "--now"})
              .starts_with("ok\nthe day ends now; 102 open requests end without a notice\n"));
    CHECK_FALSE(market.ended());
    CHECK(market.told("left without a notice firm=INV1 request=\"R100\"") == 1);
    CHECK(market.told("left without a notice firm=INV1 request=\"R101\"") == 0);
    CHECK(market.told("left without a notice more=2") == 1);
    CHECK(market.has_signed_end());
}

// The name is the firm's own, and may have any sign but a space and a bar.
TEST_CASE("a day ends now, and names the one that is left") {
    Market market;
    tell_of(market, "R\"firm=\"DLR1", '0');
    CHECK(market.asks({"end-day", "--now"}).starts_with(ok));
    CHECK_FALSE(market.ended());
    CHECK(market.told("left without a notice firm=INV1 request=\"R'firm='DLR1\"") == 1);
    CHECK(market.told("left without a notice more=") == 0);
}

TEST_CASE("a day ends now that has nothing open") {
    Market market;
    CHECK(market.asks({"end-day", "--now"}) == "ok\nthe day ends now; no request is open\n");
    CHECK_FALSE(market.ended());
    CHECK(market.told("left without a notice") == 0);
    CHECK(market.has_signed_end());
}

// A gateway that is stopped is no end of its day.
TEST_CASE("a day goes on where its gateway ends") {
    Market market;
    market.end();
    CHECK(market.told("stop cause=\"the test is over\"") == 1);
    CHECK_FALSE(market.has_signed_end());
}

TEST_CASE("a day ends at its hour") {
    wait_for_room_of_day();
    const SystemSeconds midnight = midnight_of(today());
    const auto now = std::chrono::floor<std::chrono::seconds>(std::chrono::system_clock::now());
    Market market(
        {""}, [](Config &) {},
        TradingDay{today(), midnight, now + std::chrono::seconds(2),
                   now + std::chrono::seconds(2)});
    CHECK_FALSE(market.ended());
    CHECK(market.told("stop cause=\"the day has ended\"") == 1);
    CHECK(market.has_signed_end());
}

// ---------------------------------------------------------------- two venues

// The other one is right. The next gateway goes on behind what an operator has accepted.
TEST_CASE("of two logs one is not the one that was left") {
    Market market({"north", "south"});
    CHECK(denial_of_quote(market) == "");
    market.end();
    fs::remove(market.checkpoint(1));
    market.start_again();
    CHECK_FALSE(market.gateway().is_open());
    CHECK(market.ended().value_or("").starts_with("there is no checkpoint in "));
    CHECK(market.gateway().not_accepted() == std::vector<std::size_t>{1});
    CHECK(market.exit_status() == log_not_accepted);
    market.close();
    const Act act{"ann(7)", "log accept-loss", "x"};
    accept_loss(market.config(1), {act, Act{"ann(7)", "halt", "x"}},
                std::make_shared<spdlog::logger>("none"));
    market.start_again();
    CHECK(market.gateway().is_open());
    CHECK(market.gateway().halts() == Words{"an operator has halted the venue of south"});
    market.end();
    CHECK(has_line(market.lines(1), "# act ann(7) log accept-loss because=\"x\""));
    CHECK_FALSE(has_line(market.lines(0), "accept-loss"));
}

// Each second.
TEST_CASE("numbers of each venue") {
    const auto change = [](Config &config) { config.disk = config.sqlite.parent_path(); };
    Market market({"north", "south"}, change);
    CHECK(market.asks({"halt", "--bond", "BONDA0000001", "--because", "x"}).starts_with(ok));
    market.leader(1).day().clock_is_right = false;
    for (const char *number :
         {"venue_backlog_entries{venue=\"north\"} 0", "venue_backlog_entries{venue=\"south\"} 0",
          "log_backlog_messages{venue=\"north\"} 0", "log_disk_free_bytes{venue=\"south\"} ",
          "clock_doubtful{venue=\"north\"} 0", "clock_doubtful{venue=\"south\"} 1",
          "halted{venue=\"north\"} 0", "halted_bonds{venue=\"north\"} 1",
          "halted_bonds{venue=\"south\"} 1", "speaks 2"}) {
        CHECK_MESSAGE(market.comes_to_count(fmt::format("\nmireseason_{}", number)),
                      std::string(number));
    }
    market.end();
}

// One is not answered by the venue, and none waits for the log.
TEST_CASE("entries that the venue has not answered are counted") {
    Market market({"north", "south"});
    const auto counts = [&](const std::string &what, std::size_t north, std::size_t south) {
        for (const auto &[venue, number] : {std::pair("north", north), std::pair("south", south)}) {
            CHECK_MESSAGE(market.comes_to_count(fmt::format("\nmireseason_{}{{venue=\"{}\"}} {}\n",
                                                            what, venue, number)),
                          what);
        }
    };
    counts("venue_backlog_entries", 0, 0);
    market.has_venue_wait(true);
    CHECK(denial_of_quote(market) == "");
    counts("venue_backlog_entries", 1, 0);
    counts("log_backlog_messages", 0, 0);
    market.has_venue_wait(false);
    counts("venue_backlog_entries", 0, 0);
    market.end();
}

TEST_CASE("of two venues one is named where it matters") {
    Market market({"north", "south"});
    CHECK(market.asks({"reset-session", "DLR1"}) ==
          "error\nDLR1 has a session at several venues: say which by --venue: north, south\n");
    CHECK(market.asks({"reset-session", "DLR1", "--venue", "west"}) ==
          "error\nthe venue west has no firm DLR1: `firms` lists them\n");
    CHECK(market.asks({"reset-session", "--venue", "south", "DLR1"}).starts_with(ok));
    CHECK(market.leader(0).sessions().epoch_of("DLR1") == 0);
    CHECK(market.leader(1).sessions().epoch_of("DLR1") == 1);
    CHECK(market.asks({"release", "DLR2"}) == "ok\nDLR2 may log on with its numbers as they are\n");
    CHECK(market.asks({"hand-out", "DLR1", "--venue", "south"}).starts_with("ok\n# south\n"));
    const std::string both = market.asks({"hand-out", "DLR1"});
    CHECK(both.starts_with("ok\n# north\n"));
    CHECK(both.find("\n# south\n") != std::string::npos);
    CHECK(market.asks({"halt", "--because", "x"}).starts_with(ok));
    CHECK(market.gateway().halts() == Words{"an operator has halted the venue of north",
                                            "an operator has halted the venue of "
                                            "south"});
    const std::string name = today() + "-INV1-DLR1-1";
    for (const std::size_t venue : {0, 1}) {
        market.leader(venue).day().trades.add(name);
    }
    CHECK(market.asks({"bust", name, "--because", "x"}) == "error\nseveral venues have a trade " +
                                                               name +
                                                               ": say whose by --venue: north, "
                                                               "south\n");
    CHECK(market.asks({"bust", name, "--venue", "south", "--because", "x"}).starts_with(ok));
    tell_of(market, "R1", '0', "INV1", 1);
    CHECK(market.gateway().open_requests().at(0).firm == "INV1 of south");
    market.end();
    CHECK_FALSE(has_line(market.lines(0), " reset-session "));
    CHECK(has_line(market.lines(1), "# act ann(7) reset-session DLR1"));
    CHECK(has_line(market.lines(0), "# act ann(7) release DLR2"));
    CHECK(has_line(market.lines(1), "# act ann(7) release DLR2"));
    CHECK_FALSE(has_line(market.lines(0), " bust "));
}

// ---------------------------------------------------------------- a backup

namespace {

// What a user is given for these words; nothing where they are no stream's.
std::optional<std::string> streamed(Market &market, const Words &words, uid_t user = ::geteuid()) {
    std::string came;
    const std::string line = line_of({false, words});
    const bool is_stream = stream_backup(market, user, line.substr(0, line.size() - 1),
                                         [&came](std::string_view bytes) { came += bytes; });
    CHECK((is_stream || came.empty()));
    return is_stream ? std::optional(came) : std::nullopt;
}

// The pieces of a whole stream, put together.
std::string whole(std::string_view stream) {
    check(stream.starts_with("stream\n"), std::string(stream.substr(0, 100)));
    stream.remove_prefix(7);
    std::string all;
    for (std::size_t size = 1; size != 0;) {
        check(stream.size() >= 8, "it has no end");
        size = std::stoul(std::string(stream.substr(0, 8)), nullptr, 16);
        check(size <= 65536 && stream.size() >= 8 + size, "a piece is not whole");
        all += stream.substr(8, size);
        stream.remove_prefix(8 + size);
    }
    check(stream.empty(), "something stands behind its end");
    return all;
}

// Puts the files of an archive into a folder, and gives their names.
Words unpacked(const std::string &archive, const fs::path &folder) {
    Words names;
    std::size_t at = 0;
    while (archive.at(at) != '\0') {
        const std::string name = archive.substr(at, 100).c_str();
        const std::size_t size = std::stoul(archive.substr(at + 124, 11), nullptr, 8);
        std::ofstream(folder / name, std::ios::binary) << archive.substr(at + 512, size);
        names.push_back(name);
        at += 512 + (size + 511) / 512 * 512;
    }
    CHECK(archive.substr(at) == std::string(1024, '\0'));
    return names;
}

} // namespace

TEST_CASE("a backup has each venue's log and its checkpoint") {
    Market market({"north", "south"});
    CHECK(market.asks({"halt", "--because", "x"}).starts_with(ok));
    const std::string archive = whole(streamed(market, {"backup"}).value());
    const Scratch copied("backup");
    const std::string day = today();
    CHECK(unpacked(archive, copied.path()) ==
          Words{"north.db", "north.db-wal", fmt::format("north-{}.checkpoint", day), "south.db",
                "south.db-wal", fmt::format("south-{}.checkpoint", day)});
    for (const std::size_t venue : {0, 1}) {
        Config config = market.config(venue);
        config.sqlite = copied.path() / config.sqlite.filename();
        const auto entries = read_log(config)->entries(1, 1000);
        CHECK(std::ranges::any_of(entries, [](const Entry &entry) {
            return entry.line.find(" halt because=\"x\"") != std::string::npos;
        }));
        const auto kept = CheckpointFile(copied.path(), sealer_of(config)).read();
        REQUIRE(kept);
        CHECK(kept->at.place <= entries.back().place);
    }
    market.end();
}

TEST_CASE("who is given a backup, and of what") {
    Market market;
    const std::string refused = "error\na backup has what every firm said: it is for root and the "
                                "gateway's user\n";
    CHECK(streamed(market, {"backup"}, 4242) == refused);
    CHECK(streamed(market, {"backup"}, 0).value().starts_with("stream\n"));
    CHECK_FALSE(streamed(market, {"status"}));
    CHECK_FALSE(streamed(market, {"backup", "now"}));
    CHECK(market.asks({"backup"}) == "error\nusage: backup\n");
    market.close();
    CHECK(streamed(market, {"backup"}) == "error\nno day is open: nothing\n");
    CHECK(streamed(market, {"backup"}, 4242) == refused);
}

// Else the log would have no room for what firms say.
TEST_CASE("a backup ends where the log's disk is nearly full") {
    const auto change = [](Config &config) {
        config.disk = config.sqlite.parent_path();
        config.reserve = room_of(config.disk)->bytes + 1;
    };
    Market market({""}, change);
    const std::string stream = streamed(market, {"backup"}).value();
    CHECK(stream.starts_with("stream\n"));
    CHECK(stream.ends_with("--------the log's disk is nearly full"));
    market.end();
}

} // namespace gateway::tests
