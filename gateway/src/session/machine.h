// Calls the machine of one firm's session: the proved one, or the second implementation. No other
// file includes fix_sessions.h.
#ifndef GATEWAY_SESSION_MACHINE_H
#define GATEWAY_SESSION_MACHINE_H

#include "session/fix_sessions.h"
#include "session/session_numbers.h"

#include <array>
#include <cstdint>
#include <optional>
#include <string>
#include <string_view>

namespace gateway {

// Whose session it is, and of which day.
struct SessionNames {
    std::string firm; // 49 of its messages
    std::string desk; // 57 of its Logon; empty where the venue is the only one
    std::string date; // YYYYMMDD
};

// What one event did. The texts stand in the machine until its next event.
struct MachineTurn {
    Told told{};
    std::string_view first;  // what leaves, on told.connection
    std::string_view second; // behind it
    std::string_view kept;   // the frame that is kept under the first one's number
};

// Why a message is not taken: what a BusinessMessageReject (35=j) says.
struct Denial {
    std::uint32_t reason = 0; // 380
    std::string id;           // 379; empty without one
    std::string text;         // 58, at most 200 bytes
};

// What the first message of a connection asks for.
struct LogonQuestion {
    std::string firm;     // 49
    std::string venue;    // 56
    std::string desk;     // 57
    std::string username; // 553
    std::string password; // 554
};

enum class Order : std::uint32_t { open, close, suspend, resume, release, reset };
enum class Ending : std::uint32_t { stands, ends, parts };
enum class Notice : std::uint32_t { none, credentials, refused, lost_store, rejected, dead };
enum class Want : std::uint32_t { nothing, again, fresh, tick, logon };

// An event is judged on a copy of the state, which becomes the state by adopt(): between the two
// stands what has to be in the log first. Each event throws std::runtime_error where the machine
// did nothing; then the state is as before. One thread at a time.
class Machine {
  public:
    // Of a day that begins, or of what was kept of one.
    Machine(SessionNames names, const std::optional<SessionNumbers> &kept);

    // As one that begins with these.
    void begin_with(const SessionNumbers &numbers);

    const SessionState &state() const { return state_; }
    // What the state will be.
    const SessionState &next() const { return next_; }
    const MachineTurn &turn() const { return turn_; }
    void adopt() { state_ = next_; }

    bool is_on() const { return state_.phase == phase_on; }
    // Whether this connection has the session: by it the firm is logged on, or was until a Logout.
    bool has(std::uint64_t connection) const { return has(state_, connection); }
    static bool has(const SessionState &state, std::uint64_t connection);
    bool waits(std::uint64_t connection) const {
        return state_.waits && state_.waiting.connection == connection;
    }
    bool is_away() const { return state_.phase != phase_on && state_.phase != phase_leaving; }
    SessionNumbers numbers() const;
    SessionNumbers next_numbers() const;
    Wanted wants() const;

    // The events, at a moment in milliseconds of the day.
    const MachineTurn &came(std::uint32_t moment, std::uint64_t connection, std::string_view bytes,
                            bool is_known, const Denial *denial = nullptr);
    const MachineTurn &given(std::uint32_t moment, std::string_view frame);
    // What is kept under the number that is wanted, first sent at `first`; empty where nothing is.
    const MachineTurn &hands(std::uint32_t moment, std::uint64_t next_kept, std::string_view frame,
                             std::uint32_t first, bool is_copy);
    const MachineTurn &tick(std::uint32_t moment);
    const MachineTurn &ordered(std::uint32_t moment, Order order, std::uint64_t copies = 0);
    const MachineTurn &log_out(std::uint32_t moment, std::string_view text);
    const MachineTurn &gone(std::uint64_t connection);

    // For the operator alone, before adopt(): what the firm would be told by a tick, or by a
    // message on its connection, that ends it without a word.
    std::string unsaid(std::uint32_t moment, std::uint64_t connection, std::string_view message);
    // The same of a Logon that is refused.
    std::string why_refused(std::uint32_t moment, std::uint64_t connection, std::string_view bytes);

    static constexpr std::uint32_t phase_on = 1;
    static constexpr std::uint32_t phase_leaving = 2;

  private:
    void begin() { next_ = state_; }
    const MachineTurn &take(bool is_done, const char *event);
    template <typename Call, typename... Rest>
    bool call(Call call, SessionState &state, Told &told, std::uint32_t moment, Rest... rest);

    const SessionNames names_;
    SessionState state_{};
    SessionState next_{};
    MachineTurn turn_;
    // Two frames that leave and one that is kept.
    std::array<std::uint8_t, std::size_t{3} * 4096> out_{};
};

// The first message in a stream.
struct FoundMessage {
    enum class Kind { none, message, too_long };
    std::size_t skip = 0; // bytes in front of it, which say nothing
    Kind kind = Kind::none;
    std::size_t length = 0;
};
FoundMessage next_message(std::string_view stream);

// Nothing where it is no Logon that can be read.
std::optional<LogonQuestion> question_of(std::string_view bytes);
bool is_logout(std::string_view bytes);
// Of a connection whose Logon was refused with a Logout at that moment of a day: whether the firm
// has had the time for its own.
bool is_parting_over(const std::string &date, std::uint32_t since, std::uint32_t moment);

} // namespace gateway

#endif
