// Days of a proved session and a stock QuickFIX initiator, drawn by their seeds. README.md says
// what a day is.
//
//     days FIRST LAST [garbled] [resets] [loud] [dictionary FILE]
#include "world.h"

#include <algorithm>
#include <cstdio>
#include <cstdlib>
#include <stdexcept>
#include <string>
#include <vector>

namespace sessions {

namespace {

constexpr int STEPS = 2000;
constexpr Millis MORNING = 8 * 3600 * 1000;

struct Asks {
    bool garbled = false;
    bool resets = false;
    bool loud = false;
    std::string dictionary;
};

// What a day does in a step, in so many of a thousand.
struct Rates {
    unsigned sends, gives;
    Millis step;
    unsigned flows;
    bool bad, suspends, freezes, logs_out;
};

class Day {
  public:
    Day(std::uint32_t seed, const Asks &asks)
        : pick_(seed * 7919U), asks_(asks), world_(seed, kind()), rates_(rates()) {}

    std::string run() {
        if (pick(4) == 0) {
            world_.reset_at_logon();
        }
        const bool opens_late = pick(3) == 0;
        if (!opens_late) {
            world_.venue().open();
        }
        if (pick(2) == 0) {
            for (int i = 0; i < 5; ++i) {
                world_.give();
            }
        }
        for (int i = 0; i < STEPS; ++i) {
            step();
        }
        return end();
    }

    long messages() const { return world_.messages(); }
    const Kind &drawn() const { return drawn_; }

  private:
    unsigned pick(unsigned below) { return static_cast<unsigned>(pick_() % below); }

    const Kind &kind() {
        static constexpr int heartbeats[] = {1, 5, 10, 30};
        static constexpr Millis delays[] = {5, 100, 400, 1200};
        drawn_.heartbeat = heartbeats[pick(4)];
        drawn_.most_delay = delays[pick(4)];
        drawn_.bad_frames = true;
        drawn_.rejects = 15;
        drawn_.denied = pick(3) == 0 ? 10 : 0;
        drawn_.garbled = asks_.garbled ? 5 : 0;
        drawn_.is_loud = asks_.loud;
        drawn_.dictionary = asks_.dictionary;
        set_now(MIDNIGHT + MORNING);
        return drawn_;
    }

    Rates rates() {
        Rates drawn{};
        drawn.bad = pick(2) == 0;
        drawn.suspends = pick(3) == 0;
        drawn.freezes = pick(3) == 0;
        drawn.logs_out = pick(3) == 0;
        drawn.gives = 5 * (5 + pick(25));
        drawn.sends = 5 * (5 + pick(30));
        drawn.step = pick(2) == 0 ? 30 : 100;
        drawn.flows = 1 + pick(10);
        return drawn;
    }

    void step() {
        world_.advance(static_cast<Millis>(world_.draw(static_cast<unsigned>(rates_.step))));
        Venue &venue = world_.venue();
        if (!venue.is_open() && world_.draw(100) == 0) {
            venue.open();
        }
        if (venue.is_suspended() && now() >= suspended_until_) {
            venue.resume();
        }
        happen(world_.draw(1000));
        if (now() >= frozen_until_) {
            world_.deliver(false);
            flow(world_.draw(rates_.flows));
            world_.deliver(false);
        } else {
            flow(world_.draw(3));
        }
    }

    void flow(unsigned most) {
        for (unsigned i = 0; i < most; ++i) {
            world_.venue().flow();
        }
    }

    void happen(unsigned what) {
        if (what < rates_.sends) {
            // Before a Logon with 141=Y the engine would forget what it has sent.
            if (!world_.waits_for_reset()) {
                world_.send(rates_.bad && world_.draw(8) == 0);
            }
        } else if (what < rates_.sends + rates_.gives) {
            const bool is_burst = world_.draw(20) == 0;
            for (int i = 0; i < (is_burst ? 11 : 1); ++i) {
                world_.give();
            }
        } else if (what < 500) {
            if (rates_.freezes && world_.is_connected() && world_.draw(60) == 0) {
                frozen_until_ = now() + world_.draw(static_cast<unsigned>(drawn_.heartbeat) * 3500);
            }
        } else if (what < 512) {
            world_.cut();
        } else if (what < 516) {
            world_.restart_venue();
        } else if (what < 520) {
            world_.restart_firm(world_.draw(3) == 0);
        } else if (what < 523) {
            world_.log_out_firm();
            away_until_ = now() + world_.draw(4000);
        } else if (what < 525) {
            operate(what);
        } else if (what < 600 && now() >= away_until_) {
            world_.connect();
        }
    }

    void operate(unsigned what) {
        if (asks_.resets && what == 524 && world_.draw(2) == 0) {
            world_.reset();
        } else if (rates_.logs_out && world_.draw(2) == 0) {
            world_.venue().log_out();
        } else if (rates_.suspends && !world_.venue().is_suspended()) {
            world_.venue().suspend();
            suspended_until_ = now() + world_.draw(5000);
        }
    }

    // Then the line stays up: everything comes, and it grows quiet.
    std::string end() {
        world_.settle_down();
        world_.venue().open();
        world_.venue().resume();
        world_.run(120000);
        for (int i = 0; i < 5 && !(world_.venue().is_idle() && world_.firm().is_logged_on()); ++i) {
            world_.run(7000);
        }
        std::string wrong = world_.verdict();
        const long before = world_.messages();
        world_.run(60000);
        const long most = 60 / drawn_.heartbeat * 6 + 30;
        if (world_.messages() - before > most) {
            wrong += " it does not grow quiet: " + std::to_string(world_.messages() - before) +
                     " messages a minute";
        }
        return wrong;
    }

    std::mt19937 pick_;
    Asks asks_;
    Kind drawn_;
    World world_;
    Rates rates_;
    Millis frozen_until_ = 0, away_until_ = 0, suspended_until_ = 0;
};

int run_days(std::uint32_t first, std::uint32_t last, const Asks &asks) {
    int passed = 0;
    int failed = 0;
    long messages = 0;
    for (std::uint32_t seed = first; seed <= last; ++seed) {
        Day day(seed, asks);
        std::string wrong;
        try {
            wrong = day.run();
        } catch (const std::runtime_error &fault) {
            wrong = std::string(" ") + fault.what();
        }
        messages += day.messages();
        if (wrong.empty()) {
            ++passed;
        } else {
            ++failed;
            std::printf("seed %u, HeartBtInt %d, delay %lld:%s\n", seed, day.drawn().heartbeat,
                        static_cast<long long>(day.drawn().most_delay), wrong.c_str());
        }
    }
    std::printf("%ld messages\n%d passed, %d failed\n", messages, passed, failed);
    return failed == 0 ? 0 : 1;
}

} // namespace

} // namespace sessions

int main(int count, char **words) {
    const std::vector<std::string> rest(words + std::min(count, 3), words + count);
    if (count < 3) {
        std::fprintf(stderr, "days FIRST LAST [garbled] [resets] [loud] [dictionary FILE]\n");
        return 2;
    }
    sessions::Asks asks;
    for (std::size_t i = 0; i < rest.size(); ++i) {
        asks.garbled = asks.garbled || rest[i] == "garbled";
        asks.resets = asks.resets || rest[i] == "resets";
        asks.loud = asks.loud || rest[i] == "loud";
        if (rest[i] == "dictionary" && i + 1 < rest.size()) {
            asks.dictionary = rest[++i];
        }
    }
    return sessions::run_days(static_cast<std::uint32_t>(std::strtoul(words[1], nullptr, 10)),
                              static_cast<std::uint32_t>(std::strtoul(words[2], nullptr, 10)),
                              asks);
}
