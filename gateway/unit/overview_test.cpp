// What an operator is shown and told: open requests, refusals that are counted, how the service is,
// and what a firm is handed out.
#define DOCTEST_CONFIG_IMPLEMENT_WITH_MAIN
#include <doctest/doctest.h>

#include "check.h"
#include "config/configuration_for_firm.h"
#include "firms/connection_rows.h"
#include "health/condition.h"
#include "health/firm_metrics.h"
#include "service/overview.h"
#include "session/session_event.h"
#include "venue/open_requests.h"
#include "venue_rows.h"

#include <algorithm>
#include <stdexcept>

#include <toml++/toml.h>

#include <fmt/format.h>

namespace gateway::tests {

namespace {

using namespace std::chrono_literals;

// A frame with bars in the place of SOH.
std::string frame(std::string text) {
    for (char &c : text) {
        c = c == '|' ? '\x01' : c;
    }
    return text;
}

std::string report(const std::string &fields) {
    return frame("8=FIXT.1.1|9=99|35=AI|49=VENUE|56=INV1|34=7|52=20250314-09:30:00.125|" + fields +
                 "10=000|");
}

// By docs/FORMATS.md, "Written messages", to an investor.
TEST_CASE("requests open and end") {
    OpenRequests open;
    const auto given = [&open](const std::string &fields, const std::string &firm = "INV1") {
        const std::string message = report(fields);
        open.was_given(firm, GivenFields(message));
        return open.all().size();
    };
    check(given("131=A1|297=0|") == 1, "an accepted request is open");
    check(open.all()[0].firm == "INV1" && open.all()[0].request == "A1" &&
              open.all()[0].accepted == "09:30:00.125",
          "it is told by its name, and when it was accepted");
    check(given("131=A2|297=0|") == 2, "a second one");
    check(given("131=A1|117=Q4|297=17|") == 2, "a quote that is gone ends no request");
    check(given("131=A1|297=11|453=1|448=DLR1|447=D|452=35|") == 2, "nor does a dealer's decline");
    check(given("693=h1|131=A1|117=Q5|297=5|300=4|58=Withdrawn|") == 2,
          "nor a hit that is refused");
    check(given("693=h1|117=Q9|297=9|") == 2, "nor a hit of no quote");
    check(given("693=h2|131=A1|117=Q5|297=0|") == 1, "a hit ends it");
    check(given("693=p1|131=A2|297=11|") == 0, "a pass ends it");
    check(given("131=A3|297=0|") == 1 && given("131=A3|297=7|") == 0, "it expires");
    check(given("131=A3|297=0|") == 1 && given("131=A3|297=0|") == 1,
          "what is given again is the same");
    check(given("131=A3|297=0|", "INV2") == 2, "of two investors each has a request of that name");
}

Delivery delivery(std::string type, std::string body) {
    Delivery made;
    made.type = std::move(type);
    made.wire = frame(std::move(body));
    return made;
}

TEST_CASE("refusals are told apart") {
    check(refuses(delivery("3", "45=4|371=50|373=5|")), "a Reject");
    check(refuses(delivery("AG", "131=A1|658=99|")), "a refused request");
    check(refuses(delivery("AI", "131=R1|117=a|297=5|300=99|")), "a refused quote");
    check(refuses(delivery("AI", "297=5|")), "in the first field");
    check(!refuses(delivery("AI", "131=R1|117=a|297=0|")), "an accepted quote");
    check(!refuses(delivery("AI", "117=297=5|297=0|")), "a value that looks like the field");
    check(!refuses(delivery("AI", "117=a|1297=5|297=17|")), "a longer tag, and a longer value");
    check(!refuses(delivery("AJ", "693=N1|297=5|")), "another message");
}

TEST_CASE("conditions say what is wrong") {
    Condition now{Phase::ready, "20261127", Liveness::Silent{"the venue", 14s}};
    check(!now.fault() && now.words() == "ready: 20261127", "14 seconds are none");
    now.not_taken = {"an operator has halted the venue", "the disk is full"};
    check(now.words() == "ready: 20261127 (an operator has halted the venue; the disk is full)",
          now.words());
    now.silent->time = 15s;
    check(now.words() == "the venue has not worked for 15 s (ready: 20261127)", now.words());
    check(now.has_started() && !Condition{Phase::opens, "", {}}.has_started() &&
              !Condition{Phase::ends, "", {}}.has_started() &&
              Condition{Phase::closed, "", {}}.has_started() &&
              Condition{Phase::stands_by, "", {}}.has_started(),
          "it has started where it waits, stands by, or is ready");
    Liveness liveness;
    check(!liveness.longest(), "nobody has said anything");
    liveness.put("the log");
    liveness.put("the venue", 20s);
    check(liveness.longest()->part == "the venue" && liveness.longest()->time >= 20s,
          "the longest");
    liveness.put("the venue");
    check(liveness.longest()->time < 20s, "it works again");
}

TEST_CASE("a page says whose it is") {
    const std::string page = html_of(Overview());
    const std::size_t head = page.find("<h1>Mireseason gateway</h1>");
    CHECK(head != std::string::npos);
    CHECK(page.find("<main>") < head);
    CHECK(page.find("</main>", head) != std::string::npos);
}

TEST_CASE("a page says what a firm should be asked") {
    Overview seen;
    seen.firms.resize(2);
    seen.firms[0].firm = "DLR1";
    seen.firms[0].is_on = true;
    seen.firms[0].doubt = text_of(NumberClimb{1, 92, 91});
    seen.firms[1].firm = "DLR2";
    const std::string page = html_of(seen);
    check(page.find("<td>on, may have lost its store from=1 to=92 refused=91</td>") !=
              std::string::npos,
          "of DLR1");
    check(page.find("<td>off</td>") != std::string::npos, "and nothing of DLR2");
}

TEST_CASE("a page has what is counted of a firm") {
    Overview seen;
    seen.firms.resize(1);
    FirmMetrics::Counts &firm = seen.firms[0];
    firm.firm = "DLR1";
    firm.messages = 1;
    firm.requests = 2;
    firm.quotes = 3;
    firm.hits = 4;
    firm.refusals = 5;
    firm.waiting_bytes = 6;
    std::string cells = "</th><td>off</td>";
    for (int number = 1; number <= 6; ++number) {
        cells += fmt::format("<td class=\"number\">{}</td>", number);
    }
    const auto shows = [&](const std::string &name) {
        return html_of(seen).find("<tr><th scope=\"row\">" + name + cells + "</tr>\n") !=
               std::string::npos;
    };
    CHECK(shows("DLR1"));
    firm.venue = "north";
    CHECK(shows("DLR1 of north"));
}

// In the colour of a fault only what is one.
TEST_CASE("a page shows how the service is") {
    const auto shown = [](const Condition &condition) {
        Overview seen;
        seen.condition = condition;
        const std::string begin = "<p class=\"condition ";
        const std::string page = html_of(seen);
        const std::size_t at = page.find(begin);
        check(at != std::string::npos, page);
        return page.substr(at + begin.size(),
                           page.find('"', at + begin.size()) - at - begin.size());
    };
    CHECK(shown({Phase::ready, "20261127", {}}) == "ready");
    CHECK(shown({Phase::closed, "", {}}) == "waits");
    CHECK(shown({Phase::ready, "20261127", Liveness::Silent{"the venue", 15s}}) == "fault");
}

TEST_CASE("pages show text as text") {
    Overview seen;
    seen.condition = {Phase::ready, "<b>day</b>", {}};
    seen.events = {"refused text=\"<script>alert('x')</script> & more\""};
    seen.requests = {{"INV1", "<img src=x>", "09:30:00.125"}};
    const std::string page = html_of(seen);
    for (const char *element : {"<b>", "<script>", "<img"}) {
        check(page.find(element) == std::string::npos, element);
    }
    check(page.find("&lt;script&gt;alert(&#39;x&#39;)&lt;/script&gt; &amp; more") !=
              std::string::npos,
          "an event stands there as it is");
}

// A certificate is told where there is one.
TEST_CASE("a connection is told with what it came with") {
    ConnectionEvent logon;
    logon.number = 7;
    logon.address = "192.0.2.1:4001";
    CHECK(words_of(logon) == "connection=7 address=192.0.2.1:4001");
    logon.certificate = "DLR1";
    CHECK(words_of(logon) == "connection=7 address=192.0.2.1:4001 certificate=\"DLR1\"");
}

// All are counted, and a hundred are shown.
TEST_CASE("a page has room for a hundred requests") {
    for (const std::size_t count : {99U, 100U, 101U, 250U}) {
        Overview seen;
        seen.requests.assign(count, {"INV1", "A", "09:30:00.125"});
        const std::string page = html_of(seen);
        CHECK(page.find(fmt::format("Open requests: {}<", count)) != std::string::npos);
        std::size_t shown = 0;
        for (std::size_t at = page.find("<td>INV1</td>"); at != std::string::npos;
             at = page.find("<td>INV1</td>", at + 1)) {
            ++shown;
        }
        same(std::min<std::size_t>(count, 100), shown, "requests that are shown");
    }
}

const std::string venue_text =
    "version = 3\ndate = \"20250314\"\n" +
    bond_row("grid = 128\nlow = \"95.5\"\nhigh = \"105\"\nname = \"Treasury 4 % 2034\"\n") +
    dealer_row({.traders = R"("T1", "T7")"}) +
    dealer_row({.name = "DLR2", .traders = R"("T2")", .quotes = 10, .exposure = 777'000'000}) +
    investor_row() +
    investor_row(
        {.name = "INV2", .traders = R"("T9")", .requests = 31, .open = 3, .quantity = 888'000'000});

TEST_CASE("hand outs tell a firm its own") {
    const toml::table dealer = toml::parse(configuration_for_firm(venue_text, "DLR1"));
    check(dealer["bond"][0]["id"] == "BONDA0000001" && dealer["bond"][0]["grid"] == 128 &&
              dealer["bond"][0]["name"] == "Treasury 4 % 2034" && dealer["version"] == 3 &&
              dealer["bond"][0]["low"] == "95.5" && dealer["bond"][0]["high"] == "105",
          "the bonds");
    check(dealer["dealer"][0]["exposure"] == 250000000 && dealer["dealer"][0]["traders"][1] == "T7",
          "its own row");
    check(dealer["dealer"][1]["name"] == "DLR2", "the other dealer's name");
    const std::string text = configuration_for_firm(venue_text, "DLR1");
    for (const char *secret : {"777000000", "T2", "INV1", "INV2", "888000000", "T9"}) {
        check(text.find(secret) == std::string::npos, std::string("a dealer is told ") + secret);
    }
    const std::string investor = configuration_for_firm(venue_text, "INV1");
    check(toml::parse(investor)["investor"][0]["quantity"] == 5000000, "an investor's own row");
    for (const char *secret : {"777000000", "250000000", "T1", "INV2", "888000000"}) {
        check(investor.find(secret) == std::string::npos,
              std::string("an investor is told ") + secret);
    }
    bool refused = false;
    try {
        configuration_for_firm(venue_text, "NOBODY");
    } catch (const std::runtime_error &fault) {
        refused = fault.what() == std::string("the venue has no firm NOBODY");
    }
    check(refused, "a firm that there is not");
}

} // namespace

} // namespace gateway::tests
