#include "day.h"

#include "../texts.h"

#include <algorithm>
#include <vector>

namespace sessions {

namespace {

constexpr int STEPS = 1500;
constexpr Millis MORNING = 8 * 3600 * 1000;
constexpr Millis CALM = 300000;
constexpr std::uint64_t FAR = 1000; // a number above all that are sent

// The side that calls is a session of the same rules, seen from the other end.
Names caller_names() {
    return {"VENUE", "DLR1", ""};
}

std::string logon(std::uint64_t number, int heartbeat, const std::string &password) {
    return framed(field(35, "A") + field(49, "DLR1") + field(56, "VENUE") +
                  field(34, std::to_string(number)) + field(52, timestamp(now())) + field(98, "0") +
                  field(108, std::to_string(heartbeat)) + field(553, "dlr1") +
                  field(554, password) + field(1137, "9"));
}

} // namespace

TalkDay::TalkDay(std::uint32_t seed)
    : random_(seed * 2246822519U + 7), heartbeat_(std::vector<int>{1, 5, 10, 30}[draw(4)]),
      denied_(draw(3) == 0 ? 10 : 0), gives_(20 + draw(200)),
      caller_(caller_names(), false, ends_of(false)), called_(Names(), true, ends_of(true)) {
    set_now(MIDNIGHT + MORNING);
    faults_.loses = 10 * draw(6);
    faults_.doubles = 4 * draw(4);
    faults_.spoils = 10 * draw(4);
    faults_.shortens = 10 * draw(3);
    faults_.most_delay = std::vector<Millis>{5, 100, 400, 1200}[draw(4)];
}

Ends TalkDay::ends_of(bool is_called) {
    Ends ends;
    ends.send = [this, is_called](int name, const std::string &bytes) {
        ++messages_;
        const auto at = lines_.find(name);
        if (at != lines_.end()) {
            (is_called ? at->second.down : at->second.up).put(bytes, faults_, random_);
        }
    };
    ends.close = [this, is_called](int name) {
        const auto at = lines_.find(name);
        if (at == lines_.end()) {
            return;
        }
        Line &line = at->second;
        (is_called ? line.has_called : line.has_caller) = false;
        (is_called ? line.caller_hears : line.called_hears) = now() + draw(2000);
    };
    ends.takes = [this] { return is_calm_ || draw(100) >= denied_; };
    return ends;
}

std::string TalkDay::run() {
    caller_.session().open();
    called_.session().open();
    for (int i = 0; i < STEPS; ++i) {
        step(draw(2) == 0 ? 60 : 200);
    }
    return end();
}

void TalkDay::step(Millis most) {
    set_now(now() + draw(static_cast<unsigned>(most)));
    caller_.session().tick();
    called_.session().tick();
    happen();
    deliver();
    for (Side *side : {&caller_, &called_}) {
        for (unsigned i = draw(10); i > 0 && side->session().flow(); --i) {
        }
    }
    deliver();
}

void TalkDay::happen() {
    const unsigned what = draw(1000);
    if (what < gives_) {
        give(caller_);
    } else if (what < 2 * gives_) {
        give(called_);
    } else if (what < 2 * gives_ + 200) {
        call();
    } else if (what < 2 * gives_ + 206) {
        cut();
    } else if (what < 2 * gives_ + 209) {
        restart(draw(2) == 0);
    } else if (what < 2 * gives_ + 213) {
        come_as_a_stranger();
    } else if (what < 2 * gives_ + 215) {
        (draw(2) == 0 ? caller_ : called_).session().log_out();
    }
}

void TalkDay::give(Side &side) {
    const unsigned what = draw(100);
    side.give(what < 10 ? Side::What::bad : what < 25 ? Side::What::reject : Side::What::good);
}

// The caller begins a connection where it has none.
void TalkDay::call() {
    if (current_ != 0) {
        return;
    }
    current_ = ++last_line_;
    Line &line = lines_[current_];
    called_.session().opened(current_);
    caller_.session().opened(current_);
    const std::uint64_t number = caller_.session().use_number();
    line.up.put(logon(number, heartbeat_, "secret"), faults_, random_);
}

// Each side hears at a time of its own that the line is gone.
void TalkDay::cut() {
    const auto at = lines_.find(current_);
    if (at == lines_.end()) {
        return;
    }
    at->second.up.cut(random_);
    at->second.down.cut(random_);
    at->second.caller_hears = now() + draw(4000);
    at->second.called_hears = now() + draw(6000);
}

// Somebody who has no password; or the firm itself, from another place, who then says nothing. Its
// Logon bears a number far above the caller's, so that nothing of it is counted.
void TalkDay::come_as_a_stranger() {
    const int name = ++last_line_;
    Line &line = lines_[name];
    line.has_caller = false;
    line.called_hears = now() + 1000 + draw(20000);
    called_.session().opened(name);
    const std::uint64_t number = caller_.session().state().day.next + draw(2) * FAR;
    const bool is_firm = draw(4) == 0;
    line.up.put(logon(is_firm ? number + FAR : number, heartbeat_, is_firm ? "secret" : "guess"),
                faults_, random_);
    line.up.put(framed(field(35, "S") + field(49, "DLR1") + field(56, "VENUE") +
                       field(34, std::to_string(number + FAR + 1)) + field(52, timestamp(now())) +
                       field(117, "stranger")),
                faults_, random_);
}

void TalkDay::restart(bool is_called) {
    (is_called ? called_ : caller_).session().restart();
    for (auto &each : lines_) {
        Line &line = each.second;
        if (is_called && line.has_called) {
            line.has_called = false;
            line.caller_hears = now() + draw(1000);
        } else if (!is_called && line.has_caller) {
            line.has_caller = false;
            line.called_hears = now() + draw(1000);
        }
    }
    current_ = is_called ? current_ : 0;
}

void TalkDay::deliver() {
    std::vector<int> names;
    for (const auto &each : lines_) {
        names.push_back(each.first);
    }
    for (const int name : names) {
        Line &line = lines_[name];
        deliver_on(name, line);
        lose(name, line);
        if (!line.has_caller && !line.has_called) {
            lines_.erase(name);
        }
    }
}

void TalkDay::deliver_on(int name, Line &line) {
    for (std::string bytes = line.up.pull(); !bytes.empty(); bytes = line.up.pull()) {
        if (line.has_called) {
            called_.session().bytes(name, bytes);
        }
    }
    for (std::string bytes = line.down.pull(); !bytes.empty(); bytes = line.down.pull()) {
        if (line.has_caller) {
            caller_.session().bytes(name, bytes);
        }
    }
}

// Who hears that a line is gone has lost its end.
void TalkDay::lose(int name, Line &line) {
    if (line.called_hears >= 0 && line.called_hears <= now() && line.has_called) {
        line.has_called = false;
        called_.session().gone(name);
        line.caller_hears = line.caller_hears < 0 ? now() + draw(1000) : line.caller_hears;
    }
    if (line.caller_hears >= 0 && line.caller_hears <= now() && line.has_caller) {
        line.has_caller = false;
        caller_.session().gone(name);
        line.called_hears = line.called_hears < 0 ? now() + draw(1000) : line.called_hears;
    }
    if (name == current_ && !line.has_caller) {
        current_ = 0;
    }
}

// The line keeps what it is given, and whoever lost it comes back.
void TalkDay::run_calmly(Millis span) {
    for (const Millis until = now() + span; now() < until;) {
        set_now(now() + 50);
        caller_.session().tick();
        called_.session().tick();
        call();
        deliver();
        for (Side *side : {&caller_, &called_}) {
            for (int i = 0; i < 50 && side->session().flow(); ++i) {
            }
        }
        deliver();
    }
}

std::string TalkDay::end() {
    is_calm_ = true;
    faults_ = Faults();
    run_calmly(CALM);
    std::string wrong;
    for (Side *side : {&caller_, &called_}) {
        const Side &peer = side == &caller_ ? called_ : caller_;
        const std::string found = side->wrong_of(peer);
        wrong += found.empty() ? "" : (side == &caller_ ? " the caller," : " the called,") + found;
        wrong += side->session().is_idle() ? "" : " not idle";
    }
    const long before = messages_;
    run_calmly(60000);
    if (messages_ - before > 60 / heartbeat_ * 6 + 30) {
        wrong += " it does not grow quiet";
    }
    return wrong;
}

} // namespace sessions
