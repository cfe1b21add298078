// Tests the calls of fix_sessions.h as C++ makes them, by whichever implementation is linked: which
// argument is none, what a Logon asks for, and which time is kept of a day.
#define DOCTEST_CONFIG_IMPLEMENT_WITH_MAIN
#include <doctest/doctest.h>

#include "check.h"
#include "common/frame.h"
#include "session/fix_sessions.h"

#include <array>
#include <chrono>
#include <cstring>
#include <functional>
#include <optional>
#include <string>
#include <string_view>
#include <tuple>
#include <vector>

namespace gateway::tests {

namespace {

constexpr std::uint32_t nine = 9 * 3'600'000;
constexpr std::uint32_t midnight = 86'400'000;

Bytes at(std::string_view text) {
    return reinterpret_cast<Bytes>(text.empty() ? "" : text.data());
}

// A message of these fields, which are written with bars.
std::string message(const std::string &fields) {
    return framed(with_soh(fields));
}

std::string logon_of(const std::string &date) {
    return message("35=A|49=DLR1|56=VENUE|34=1|52=" + date + "-09:00:00|98=0|108=30|1137=9|");
}

// A session, and the arguments of its calls.
struct Calls {
    Calls() { fix_sessions_new(&state); }

    template <typename Call, typename... Rest> bool call(Call one, Rest... rest) {
        return one(&state, at(firm), firm.size(), at(venue), venue.size(), at(desk), desk.size(),
                   at(date), date.size(), moment, rest..., out.data(), room, &told);
    }
    bool came(const std::string &bytes) {
        return call(fix_sessions_came, connection, at(bytes), bytes.size(), true, is_denied,
                    std::uint64_t{4}, at(id), id.size(), at(text), text.size());
    }
    bool given(const std::string &frame) {
        return call(fix_sessions_given, at(frame), frame.size());
    }
    bool hands(const std::string &frame, std::uint32_t first, bool is_copy = false) {
        return call(fix_sessions_hands, std::uint64_t{9}, at(frame), frame.size(), first, is_copy);
    }
    Wanted wants() const {
        Wanted wanted{7, 7};
        fix_sessions_wants(&state, &wanted);
        return wanted;
    }
    // What left first, with bars for SOH.
    std::string first() const {
        return with_bars({reinterpret_cast<const char *>(out.data()), told.first.len});
    }
    bool tick() { return call(fix_sessions_tick); }
    bool tick_at(std::uint32_t at) {
        moment = at;
        return tick();
    }
    bool ordered(std::uint32_t kind, std::uint64_t copies = 0) {
        return call(fix_sessions_ordered, kind, copies);
    }
    bool log_out(const std::string &why) { return call(fix_sessions_log_out, at(why), why.size()); }

    // Opens the venue, and logs the firm on.
    void begin() {
        REQUIRE(ordered(0));
        REQUIRE(came(logon_of(date)));
        REQUIRE(state.phase == 1);
    }

    SessionState state{};
    Told told{};
    std::array<std::uint8_t, 12'288> out{};
    std::size_t room = 12'288;
    std::string firm = "DLR1", venue = "VENUE", desk, date = "20250314";
    std::uint32_t moment = nine;
    std::uint64_t connection = 1;
    bool is_denied = false;
    std::string id, text;
};

// All bytes of a session: what is not written keeps them.
using Snapshot = std::array<unsigned char, sizeof(SessionState)>;
Snapshot snapshot(const Calls &calls) {
    Snapshot bytes{};
    std::memcpy(bytes.data(), &calls.state, bytes.size());
    return bytes;
}

using Ask = std::function<bool(Calls &)>;

// What every event is asked with: the events themselves, of which each is one that a session takes.
std::vector<Ask> events() {
    return {[](Calls &calls) { return calls.came(logon_of("20250314")); },
            [](Calls &calls) { return calls.given(message("35=AI|117=a|")); },
            [](Calls &calls) { return calls.hands("", 0); },
            [](Calls &calls) { return calls.tick(); },
            [](Calls &calls) { return calls.ordered(1); },
            [](Calls &calls) { return calls.log_out("held too long"); }};
}

// Each event does nothing, and the session is as before.
void refuses(const std::function<void(Calls &)> &change, const std::string &what) {
    for (const Ask &ask : events()) {
        Calls calls;
        change(calls);
        const Snapshot before = snapshot(calls);
        CHECK_MESSAGE(!ask(calls), what);
        CHECK_MESSAGE(before == snapshot(calls), what);
    }
}

void takes(const std::function<void(Calls &)> &change, const std::string &what) {
    for (const Ask &ask : events()) {
        Calls calls;
        change(calls);
        CHECK_MESSAGE(ask(calls), what);
    }
}

// The texts of a Logon, as a question copies them.
std::optional<std::vector<std::string>> asked(const std::string &logon, std::size_t room = 5'120) {
    std::vector<std::uint8_t> out(5'120);
    Asked lengths{};
    if (!fix_sessions_question(at(logon), logon.size(), out.data(), room, &lengths)) {
        return std::nullopt;
    }
    std::vector<std::string> texts;
    const std::uint8_t *from = out.data();
    for (const std::size_t length :
         {lengths.firm, lengths.venue, lengths.desk, lengths.username, lengths.password}) {
        texts.emplace_back(reinterpret_cast<const char *>(from), length);
        from += length;
    }
    return texts;
}

std::string logon_with(const std::string &firm, const std::string &venue, const std::string &rest) {
    return message("35=A|49=" + firm + "|56=" + venue + "|34=1|52=20250314-09:00:00|" + rest);
}

// What a connection has that is logged on.
std::vector<std::uint64_t> numbers_of(const Line &line) {
    return {line.connection, line.heartbeat, line.received,       line.sent,
            line.gap,        line.gap_since, line.again,          line.again_end,
            line.fresh,      line.split,     line.first_test,     line.last_test,
            line.test_since, line.overtook,  line.settling_since, line.is_settled,
            line.is_held,    line.is_asked,  line.is_test_due,    line.is_request_due};
}

// A session without a connection: it has no line, and no Logout is waited for.
void check_away(const SessionState &state) {
    CHECK(state.phase == 0);
    CHECK(numbers_of(state.line) == numbers_of(Line{}));
    CHECK(state.connection == 0);
    CHECK(state.since == 0);
}

// What was said last ends this connection.
void check_ends(const Told &told, std::uint64_t connection) {
    CHECK(told.connection == connection);
    CHECK(told.ending == 1);
}

void check_nobody_waits(const SessionState &state) {
    CHECK_FALSE(state.waits);
    CHECK(state.waiting.connection == 0);
    CHECK(state.waiting.since == 0);
    CHECK_FALSE(state.waiting.is_alive);
}

std::string firms(const std::string &type, int number, const std::string &rest = "") {
    return message("35=" + type + "|49=DLR1|56=VENUE|34=" + std::to_string(number) +
                   "|52=20250314-09:00:00|" + rest);
}

// A SendingTime (52) as a session keeps it: milliseconds since 1970, and those of 719,528 days.
std::uint64_t kept_time(std::chrono::year_month_day day, std::uint32_t moment) {
    const auto days = std::chrono::sys_days{day}.time_since_epoch().count();
    return (static_cast<std::uint64_t>(days) + 719'528) * midnight + moment;
}

} // namespace

TEST_CASE("names, a date and a moment that are none") {
    refuses([](Calls &calls) { calls.firm.clear(); }, "no firm");
    refuses([](Calls &calls) { calls.venue.clear(); }, "no venue");
    takes([](Calls &calls) { calls.firm = calls.venue = std::string(40, 'x'); }, "40 bytes");
    refuses([](Calls &calls) { calls.firm = std::string(41, 'x'); }, "a firm of 41 bytes");
    refuses([](Calls &calls) { calls.venue = std::string(41, 'x'); }, "a venue of 41 bytes");
    refuses([](Calls &calls) { calls.firm = with_soh("a|b"); }, "a SOH in a firm's name");
    refuses([](Calls &calls) { calls.venue = with_soh("|"); }, "a SOH in the venue's name");
    for (const char *date :
         {"", "2025031", "202503140", "2025031x", "20250014", "20251314", "20250300", "20250332"}) {
        refuses([&](Calls &calls) { calls.date = date; }, date);
    }
    for (const char *date : {"20250101", "20251231", "00000131", "99991231"}) {
        takes([&](Calls &calls) { calls.date = date; }, date);
    }
    takes([](Calls &calls) { calls.moment = midnight - 1; }, "the last moment of a day");
    refuses([](Calls &calls) { calls.moment = midnight; }, "the moment behind it");
}

TEST_CASE("a reason for which a message is not taken") {
    const auto denied = [](const std::string &id, const std::string &text) {
        Calls calls;
        calls.begin();
        calls.is_denied = true;
        calls.id = id;
        calls.text = text;
        const Snapshot before = snapshot(calls);
        const bool is_done =
            calls.came(message("35=S|49=DLR1|56=VENUE|34=2|52=20250314-09:00:00|"));
        CHECK(is_done == (before != snapshot(calls)));
        return is_done;
    };
    CHECK(denied("q1", "closed"));
    CHECK(denied("", "x"));
    CHECK(denied(std::string(200, 'i'), std::string(200, 't')));
    CHECK(!denied("q1", ""));
    CHECK(!denied("q1", std::string(201, 't')));
    CHECK(!denied("q1", with_soh("a|b")));
    CHECK(!denied(std::string(201, 'i'), "closed"));
    CHECK(!denied(with_soh("a|b"), "closed"));
}

TEST_CASE("a text of a Logout by the gateway") {
    const auto logged_out = [](const std::string &text) {
        Calls calls;
        calls.begin();
        const Snapshot before = snapshot(calls);
        const bool is_done = calls.log_out(text);
        CHECK(is_done == (before != snapshot(calls)));
        return is_done;
    };
    CHECK(logged_out("x"));
    CHECK(logged_out(std::string(200, 'x')));
    CHECK(!logged_out(""));
    CHECK(!logged_out(std::string(201, 'x')));
    CHECK(!logged_out(with_soh("a|b")));
}

TEST_CASE("an order that is none") {
    Calls calls;
    CHECK(calls.ordered(5));
    const Snapshot before = snapshot(calls);
    CHECK(!calls.ordered(6));
    CHECK(before == snapshot(calls));
}

TEST_CASE("a frame of the venue's that is none") {
    const auto long_body = [](std::size_t length) {
        const std::string front = "35=AI|58=";
        return message(front + std::string(length - front.size() - 1, 'x') + "|");
    };
    Calls calls;
    const Snapshot before = snapshot(calls);
    std::string wrong_sum = message("35=AI|117=a|");
    wrong_sum[wrong_sum.size() - 2] ^= 1;
    for (const std::string &frame :
         {std::string(), std::string("x"), message("35=AI|117=a|") + "x", wrong_sum,
          message("117=a|35=AI|"), message("35=AI|x=a|"), message("35=AI|8=a|"),
          message("35=AI|117=a"), long_body(3'801)}) {
        CHECK_MESSAGE(!calls.given(frame), frame);
        CHECK_MESSAGE((frame.empty() || !calls.hands(frame, 0)), frame);
        CHECK_MESSAGE(before == snapshot(calls), frame);
    }
    CHECK(calls.given(long_body(3'800)));
    CHECK(calls.hands(long_body(3'800), 0));
    CHECK(calls.hands(long_body(3'800), midnight - 1));
    CHECK(!calls.hands(long_body(3'800), midnight));
    CHECK(!calls.hands("", midnight));
}

TEST_CASE("no room for what a turn says") {
    Calls whole;
    whole.begin();
    const std::size_t length = whole.told.first.len;
    Calls calls;
    REQUIRE(calls.ordered(0));
    const Snapshot before = snapshot(calls);
    calls.room = length - 1;
    CHECK(!calls.came(logon_of(calls.date)));
    CHECK(before == snapshot(calls));
    calls.room = length;
    CHECK(calls.came(logon_of(calls.date)));
    CHECK(calls.told.first.len == length);
    CHECK(calls.state.phase == 1);
}

TEST_CASE("each byte of what leaves, and of what leaves again") {
    const std::string header = "|49=VENUE|56=DLR1|34=";
    Calls calls;
    calls.begin();
    CHECK(calls.first() ==
          with_bars(message("35=A" + header + "1|52=20250314-09:00:00.000|98=0|108=30|1137=9|")));
    calls.moment = nine + 1'002;
    REQUIRE(calls.given(message("35=AI|117=a|")));
    CHECK(calls.first() ==
          with_bars(message("35=AI" + header + "2|52=20250314-09:00:01.002|117=a|")));
    REQUIRE(calls.came(firms("2", 2, "7=1|16=0|")));
    calls.moment = nine + 60'045;
    REQUIRE(calls.hands("", 0));
    CHECK(calls.first() ==
          with_bars(message("35=4" + header +
                            "1|43=Y|52=20250314-09:01:00.045|122=20250314-09:01:00.045|123=Y|"
                            "36=2|")));
    REQUIRE(calls.hands(message("35=AI|117=a|"), nine + 1'002, true));
    CHECK(calls.first() ==
          with_bars(message("35=AI" + header +
                            "2|43=Y|52=20250314-09:01:00.045|122=20250314-09:00:01.002|97=Y|"
                            "117=a|")));
}

TEST_CASE("a turn that says nothing, and one that keeps nothing") {
    Calls calls;
    REQUIRE(calls.ordered(0));
    CHECK(calls.told.first.number == 0);
    CHECK(calls.told.first.len == 0);
    CHECK_FALSE(calls.told.first.is_kept);
    CHECK(calls.told.kept_len == 0);
    REQUIRE(calls.came(logon_of(calls.date)));
    CHECK(calls.told.first.number == 1);
    CHECK_FALSE(calls.told.first.is_kept);
    CHECK(calls.told.kept_len == 0);
    CHECK(calls.told.second.number == 0);
    REQUIRE(calls.given(message("35=AI|117=a|")));
    CHECK(calls.told.first.number == 2);
    CHECK(calls.told.first.is_kept);
    CHECK(calls.told.kept_len == message("35=AI|117=a|").size());
}

TEST_CASE("the longest message of a stream, and a longer one") {
    const auto next = [](const std::string &bytes) {
        FoundNext found{7, 7, 7};
        fix_sessions_next(at(bytes), bytes.size(), &found);
        return std::vector<std::size_t>{found.skip, found.kind, found.len};
    };
    using Found = std::vector<std::size_t>;
    const auto long_message = [](std::size_t length) {
        const std::string front = "8=FIXT.1.1|9=00000|35=S|58=";
        const std::size_t rest = length - front.size() - 8;
        return message("35=S|58=" + std::string(rest, 'x') + "|");
    };
    const std::string most = long_message(65'536);
    REQUIRE(most.size() == 65'536);
    CHECK(next(most) == Found{0, 1, 65'536});
    CHECK(next(most + most) == Found{0, 1, 65'536});
    CHECK(next(most.substr(0, 65'535)) == Found{0, 0, 0});
    const std::string more = long_message(65'537);
    CHECK(next(more) == Found{0, 2, 0});
    CHECK(next(more.substr(0, 65'536)) == Found{0, 2, 0});
    CHECK(next(more.substr(0, 65'535)) == Found{0, 0, 0});
    CHECK(next("xy" + more) == Found{2, 2, 0});
    CHECK(next(with_soh("8=F|9=999999999|") + std::string(65'519, 'x')) == Found{0, 0, 0});
    CHECK(next(with_soh("8=F|9=999999999|") + std::string(65'520, 'x')) == Found{0, 2, 0});
    CHECK(next("xyz") == Found{3, 0, 0});
    CHECK(next("") == Found{0, 0, 0});
}

TEST_CASE("what a Logon asks for") {
    using Texts = std::vector<std::string>;
    CHECK(asked(logon_with("F", "VENUE", "57=B1|553=user|554=secret|")) ==
          Texts{"F", "VENUE", "B1", "user", "secret"});
    CHECK(asked(logon_with("F", "VENUE", "")) == Texts{"F", "VENUE", "", "", ""});
    CHECK(asked(logon_with("F", "VENUE", "554=secret|")) == Texts{"F", "VENUE", "", "", "secret"});
    const std::string most(1'024, 'x');
    const std::string more(1'025, 'x');
    CHECK(asked(logon_with(most, "VENUE", "")) == Texts{most, "VENUE", "", "", ""});
    CHECK(asked(logon_with("F", most, "")) == Texts{"F", most, "", "", ""});
    CHECK(asked(logon_with("F", "V", "57=" + most + "|553=" + most + "|")) ==
          Texts{"F", "V", most, most, ""});
    CHECK(asked(logon_with("F", "V", "57=a|554=" + most + "|")) == Texts{"F", "V", "a", "", most});
    CHECK(asked(logon_with("F", "V", "57=" + more + "|553=" + more + "|")) ==
          Texts{"F", "V", "", "", ""});
    CHECK(asked(logon_with("F", "V", "553=a|554=" + more + "|")) == Texts{"F", "V", "", "a", ""});
    CHECK(!asked(logon_with(more, "VENUE", "")));
    CHECK(!asked(logon_with("F", more, "")));
    CHECK(!asked(logon_with("", "VENUE", "")));
    CHECK(!asked(logon_with("F", "", "")));
}

TEST_CASE("what is no Logon asks for nothing") {
    const std::string logon = logon_with("F", "VENUE", "554=secret|");
    CHECK(asked(logon, 12));
    CHECK(!asked(logon, 11));
    CHECK(!asked(""));
    CHECK(!asked(logon + "x"));
    CHECK(!asked(logon.substr(0, logon.size() - 1)));
    CHECK(!asked(message("35=0|49=F|56=VENUE|34=1|")));
    CHECK(!asked(message("35=A|56=VENUE|34=1|")));
    CHECK(!asked(message("35=A|49=F|34=1|")));
    CHECK(!asked(message("35=A|49=F|56=VENUE|")));
    CHECK(!asked(message("35=A|49=F|56=VENUE|34=0|")));
    CHECK(!asked(message("35=A|49=F|56=VENUE|34=1|34=1|")));
    CHECK(!asked(message("35=A|49=F|56=VENUE|34=1|554=a|554=b|")));
    CHECK(!asked(message("35=A|49=F|56=VENUE|34=1|112=|")));
}

TEST_CASE("what is a Logout") {
    const auto is_logout = [](const std::string &bytes) {
        return fix_sessions_is_logout(at(bytes), bytes.size());
    };
    const std::string logout = message("35=5|49=F|56=VENUE|34=2|");
    CHECK(is_logout(logout));
    CHECK(is_logout(message("35=5|")));
    CHECK(!is_logout(logout + "x"));
    CHECK(!is_logout(logout.substr(1)));
    CHECK(!is_logout(message("35=0|49=F|56=VENUE|34=2|")));
    CHECK(!is_logout(message("35=55|")));
    CHECK(!is_logout(with_soh("8=FIX.4.4|9=5|35=5|10=168|")));
    CHECK(!is_logout(""));
}

TEST_CASE("what a session is once its connection is gone, or has ended") {
    Calls calls;
    check_away(calls.state);
    calls.begin();
    fix_sessions_gone(&calls.state, 2);
    CHECK(calls.state.phase == 1);
    fix_sessions_gone(&calls.state, 1);
    check_away(calls.state);
    Calls parted;
    parted.begin();
    REQUIRE(parted.came(firms("5", 2)));
    CHECK(parted.told.ending == 1);
    check_away(parted.state);
}

TEST_CASE("what a session is while a Logout is waited for, and behind it") {
    Calls calls;
    calls.begin();
    REQUIRE(calls.tick());
    REQUIRE(calls.came(firms("0", 2, "112=2|")));
    REQUIRE(calls.state.line.is_settled);
    calls.moment = nine + 500;
    REQUIRE(calls.log_out("held too long"));
    CHECK(calls.state.phase == 2);
    CHECK(numbers_of(calls.state.line) == numbers_of(Line{}));
    CHECK(calls.state.connection == 1);
    CHECK(calls.state.since == nine + 500);
    REQUIRE(calls.tick_at(nine + 2'499));
    CHECK(calls.state.phase == 2);
    REQUIRE(calls.tick_at(nine + 2'500));
    check_ends(calls.told, 1);
    check_away(calls.state);
}

TEST_CASE("what a session is behind an operator's reset, with copies and without") {
    for (const auto &[copies, first, last] :
         std::vector<std::tuple<std::uint64_t, std::uint64_t, std::uint64_t>>{
             {0, 0, 0}, {1, 2, 2}, {3, 2, 4}}) {
        CAPTURE(copies);
        Calls calls;
        calls.begin();
        REQUIRE(calls.given(message("35=AI|117=a|")));
        REQUIRE(calls.came(firms("S", 2)));
        REQUIRE(calls.ordered(5, copies));
        check_ends(calls.told, 1);
        CHECK(calls.told.drops_rejects);
        check_away(calls.state);
        const Day &day = calls.state.day;
        CHECK(day.expected == 1);
        CHECK(day.next == 2 + copies);
        CHECK(day.had == 0);
        CHECK(day.first_given == first);
        CHECK(day.last_given == last);
        CHECK(day.last_kept == last);
        CHECK(day.is_one_free);
        CHECK_FALSE(day.was_taken);
        CHECK(day.is_reset);
        CHECK_FALSE(day.is_locked);
        CHECK(day.last_logon == 0);
        CHECK(day.is_open);
        CHECK_FALSE(day.is_suspended);
    }
}

TEST_CASE("a reset of a session that is away, closed or suspended") {
    Calls calls;
    REQUIRE(calls.ordered(2));
    REQUIRE(calls.ordered(5));
    CHECK(calls.told.connection == 0);
    CHECK(calls.told.ending == 0);
    CHECK_FALSE(calls.state.day.is_open);
    CHECK(calls.state.day.is_suspended);
}

TEST_CASE("who waits for a connection, and who does not any more") {
    Calls calls;
    calls.begin();
    check_nobody_waits(calls.state);
    calls.connection = 2;
    calls.moment = nine + 1;
    REQUIRE(calls.came(firms("A", 2, "98=0|108=30|1137=9|")));
    CHECK(calls.state.waits);
    CHECK(calls.state.waiting.connection == 2);
    CHECK(calls.state.waiting.since == nine + 1);
    CHECK_FALSE(calls.state.waiting.is_alive);
    calls.connection = 1;
    REQUIRE(calls.came(firms("0", 2)));
    CHECK(calls.state.waiting.is_alive);
    fix_sessions_gone(&calls.state, 3);
    CHECK(calls.state.waits);
    Calls in_vain = calls;
    fix_sessions_gone(&calls.state, 2);
    check_nobody_waits(calls.state);
    REQUIRE(calls.came(firms("0", 3)));
    check_nobody_waits(calls.state);
    REQUIRE(in_vain.tick_at(nine + 2'001));
    check_ends(in_vain.told, 2);
    check_nobody_waits(in_vain.state);
}

// A Reject is held until the firm answers, and a TestRequest overtakes it.
TEST_CASE("what a session asks for, one after the other") {
    enum : std::uint32_t { nothing, again, fresh, tick };
    const std::string reject = message("35=3|45=2|371=112|372=1|373=1|");
    Calls calls;
    const auto wants = [&](std::uint32_t kind, std::uint64_t number) {
        const Wanted wanted = calls.wants();
        return wanted.kind == kind && wanted.number == number;
    };
    calls.begin();
    CHECK(wants(tick, 0));
    REQUIRE(calls.tick());
    CHECK(wants(nothing, 0));
    REQUIRE(calls.came(firms("1", 2)));
    CHECK(calls.state.day.last_kept == 3);
    CHECK(wants(fresh, 3));
    Calls waiting = calls;
    REQUIRE(waiting.tick_at(nine + 10'000));
    CHECK(waiting.told.first.number == 0); // it overtakes what is held, and nothing else
    REQUIRE(calls.hands(reject, nine));
    CHECK(wants(nothing, 0));
    REQUIRE(calls.given(message("35=AI|117=a|")));
    CHECK(calls.state.day.first_given == 4);
    CHECK(calls.state.day.last_given == 4);
    CHECK(calls.state.day.last_kept == 4);
    REQUIRE(calls.tick_at(nine + 10'000));
    CHECK(calls.state.line.overtook == 5);
    REQUIRE(calls.came(firms("0", 3, "112=5|")));
    CHECK(calls.state.line.is_settled);
    CHECK(calls.state.day.had == 5);
    CHECK(wants(fresh, 3));
    REQUIRE(calls.hands(reject, nine));
    CHECK(wants(fresh, 4));
    REQUIRE(calls.hands(message("35=AI|117=a|"), nine, true));
    CHECK(calls.first().find("|97=Y|117=a|") != std::string::npos);
    CHECK(wants(fresh, 5));
    REQUIRE(calls.came(firms("2", 4, "7=5|16=0|")));
    CHECK(wants(again, 5));
    CHECK(calls.state.line.again_end == 6);
    REQUIRE(calls.hands("", 0));
    CHECK(wants(nothing, 0));
    CHECK(calls.state.line.fresh == 6);
}

TEST_CASE("numbers that no connection has count as used up") {
    using Change = std::function<void(SessionState &)>;
    const auto disconnects = [](const Change &change) {
        Calls calls;
        calls.begin();
        change(calls.state);
        REQUIRE(calls.tick());
        return calls.told.ending == 1 && calls.state.phase == 0;
    };
    CHECK_FALSE(disconnects([](SessionState &) {}));
    CHECK_FALSE(disconnects([](SessionState &state) { state.line.fresh = state.day.next; }));
    CHECK(disconnects([](SessionState &state) { state.line.fresh = state.day.next + 1; }));
    CHECK_FALSE(disconnects([](SessionState &state) { state.line.again_end = state.day.next; }));
    CHECK(disconnects([](SessionState &state) { state.line.again_end = state.day.next + 1; }));
    CHECK_FALSE(disconnects([](SessionState &state) { state.line.overtook = state.day.next; }));
    CHECK(disconnects([](SessionState &state) { state.line.overtook = state.day.next + 1; }));
    CHECK_FALSE(disconnects([](SessionState &state) { state.day.expected = 999'999'990; }));
    CHECK(disconnects([](SessionState &state) { state.day.expected = 999'999'991; }));
    const auto next_is = [](std::uint64_t next) {
        return [next](SessionState &state) { state.day.next = state.line.fresh = next; };
    };
    CHECK_FALSE(disconnects(next_is(999'999'990)));
    CHECK(disconnects(next_is(999'999'991)));
}

TEST_CASE("ten seconds for a first message, and two for a Logout") {
    const std::string date = "20250314";
    const auto is_late = [&](std::uint64_t since, std::uint32_t moment) {
        return fix_sessions_is_first_late(since, at(date), date.size(), moment);
    };
    const auto is_over = [&](std::uint64_t since, std::uint32_t moment) {
        return fix_sessions_is_parting_over(since, at(date), date.size(), moment);
    };
    CHECK(!is_late(nine, nine + 9'999));
    CHECK(is_late(nine, nine + 10'000));
    CHECK(!is_late(nine, nine - 10'000));
    CHECK(!is_over(nine, nine + 1'999));
    CHECK(is_over(nine, nine + 2'000));
    CHECK(!is_over(nine, nine - 2'000));
    CHECK(is_late(0, midnight - 1));
    CHECK(!is_late(0, midnight));
    CHECK(is_over(0, midnight - 1));
    CHECK(!is_over(0, midnight));
    CHECK(!fix_sessions_is_first_late(0, at("2025"), 4, nine));
    CHECK(!fix_sessions_is_parting_over(0, at("2025"), 4, nine));
}

TEST_CASE("the time of a Logon and of a reset, on days of every kind") {
    using namespace std::chrono;
    for (const year_month_day day :
         {1970y / January / 1,   2000y / February / 29, 2000y / March / 1,
          2023y / December / 31, 2024y / January / 1,   2024y / January / 31,
          2024y / February / 29, 2024y / March / 1,     2024y / December / 31,
          2025y / February / 28, 2025y / March / 1,     2025y / March / 31,
          2025y / April / 30,    2025y / May / 31,      2025y / June / 30,
          2025y / July / 31,     2025y / August / 31,   2025y / September / 30,
          2025y / October / 31,  2025y / November / 30, 2100y / February / 28,
          2100y / March / 1,     2400y / March / 1}) {
        Calls calls;
        calls.date =
            fmt::format("{:04}{:02}{:02}", static_cast<int>(day.year()),
                        static_cast<unsigned>(day.month()), static_cast<unsigned>(day.day()));
        CAPTURE(calls.date);
        calls.begin();
        CHECK(calls.state.day.last_logon == kept_time(day, nine));
        calls.moment = nine + 61'001;
        REQUIRE(calls.ordered(5));
        CHECK(calls.state.day.reset_at == kept_time(day, nine + 61'001));
    }
}

TEST_CASE("two minutes over the end of a month and of a year") {
    for (const auto &[date, next] :
         std::vector<std::pair<std::string, std::string>>{{"20240228", "20240229"},
                                                          {"20240229", "20240301"},
                                                          {"20250228", "20250301"},
                                                          {"20241231", "20250101"},
                                                          {"21000228", "21000301"},
                                                          {"20000228", "20000229"}}) {
        CAPTURE(date);
        for (const auto &[time, is_taken] :
             {std::pair{"-00:01:30", true}, std::pair{"-00:01:30.001", false}}) {
            Calls calls;
            calls.date = date;
            calls.begin();
            calls.moment = midnight - 30'000;
            REQUIRE(calls.came(message("35=S|49=DLR1|56=VENUE|34=2|52=" + next + time + "|")));
            CHECK((calls.told.takes == 2) == is_taken);
        }
    }
}

} // namespace gateway::tests
