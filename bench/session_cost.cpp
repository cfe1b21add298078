// Hands a firm's session the same quote of 220 bytes again and again, as the gateway hands it what came: each round begins
// with the session as it was after the Logon, so that the quote is the message that it expects.
#include "frames.h"

#include "../gateway/src/session/fix_sessions.h"

#include <cstdint>
#include <cstdio>
#include <cstdlib>
#include <string>
#include <vector>

namespace {

constexpr std::uint32_t kNineOClock = 32'400'000;
constexpr std::size_t kQuoteLength = 220;

Bytes at(const std::string &text) { return reinterpret_cast<Bytes>(text.data()); }

std::string message(const std::string &type, int number, const std::string &rest) {
    return framed("35=" + type + "\x01" "49=DLR1\x01" "56=VENUE\x01" "34=" + std::to_string(number) + "\x01"
                  "52=20250314-09:00:00.123\x01" + rest);
}

std::string logon() {
    return message("A", 1, "98=0\x01" "108=30\x01" "141=Y\x01" "1137=9\x01" "553=DLR1\x01" "554=secret\x01");
}

std::string quote() {
    return message("S", 2, "131=R01\x01" "117=Q000000042\x01" "537=1\x01" "48=BONDA0000001\x01" "22=4\x01"
                   "132=99.515625\x01" "133=99.546875\x01" "134=5000000\x01" "135=5000000\x01"
                   "62=20250314-09:05:00\x01" "60=20250314-09:00:00\x01");
}

// One session, and the room for what its turns say.
class Desk {
  public:
    Desk() : out_(12'288) { fix_sessions_new(&session_); }

    bool open() {
        return fix_sessions_ordered(&session_, at(firm_), firm_.size(), at(venue_), venue_.size(), nullptr, 0, at(date_),
                                    date_.size(), kNineOClock, 0, 0, out_.data(), out_.size(), &told_);
    }

    // The number under which the venue is given the message that came, or 0.
    std::uint64_t came(const std::string &bytes) {
        const bool done = fix_sessions_came(&session_, at(firm_), firm_.size(), at(venue_), venue_.size(), nullptr, 0,
                                            at(date_), date_.size(), kNineOClock, 1, at(bytes), bytes.size(), true, false,
                                            0, nullptr, 0, nullptr, 0, out_.data(), out_.size(), &told_);
        return done ? told_.takes : 0;
    }

    const SessionState &session() const { return session_; }
    void begin_again(const SessionState &session) { session_ = session; }

  private:
    std::string firm_ = "DLR1", venue_ = "VENUE", date_ = "20250314";
    SessionState session_{};
    Told told_{};
    std::vector<std::uint8_t> out_;
};

}  // namespace

int main(int count, char **words) {
    if (count != 2) return 2;  // ROUNDS
    Desk desk;
    const std::string bytes = quote();
    if (bytes.size() != kQuoteLength || !desk.open()) return 2;
    desk.came(logon());
    const SessionState ready = desk.session();
    std::uint64_t taken = 0;
    const int rounds = std::atoi(words[1]);
    for (int i = 0; i < rounds; ++i) {
        desk.begin_again(ready);
        taken += desk.came(bytes) == 2 ? 1 : 0;
    }
    return taken == static_cast<std::uint64_t>(rounds) ? 0 : 1;
}
