// Remembers the numbers of Logons with wrong credentials.
#ifndef GATEWAY_SESSION_REFUSED_NUMBERS_H
#define GATEWAY_SESSION_REFUSED_NUMBERS_H

#include <algorithm>
#include <charconv>
#include <cstdint>
#include <optional>
#include <string_view>
#include <utility>

namespace gateway {

// An engine that was refused under numbers that came before, and was let in once it had none of
// these any more: what it sent under them meanwhile is in no log.
struct NumberClimb {
    std::uint32_t from = 0;    // the lowest number of a Logon that was refused
    std::uint32_t to = 0;      // that of the one that was accepted
    std::uint64_t refused = 0; // how many were, from the first of these numbers on
};

// MsgSeqNum (34) of a Logon as it came; nothing where it is no number.
inline std::optional<std::uint32_t> logon_number(std::string_view logon) {
    constexpr std::string_view tag = "\x01"
                                     "34=";
    constexpr std::size_t most_digits = 9;
    const std::size_t found = logon.find(tag);
    if (found == std::string_view::npos) {
        return std::nullopt;
    }
    const std::string_view rest = logon.substr(found + tag.size());
    const std::string_view digits = rest.substr(0, rest.find('\x01'));
    std::uint32_t number = 0;
    const char *const end = digits.data() + digits.size();
    const auto [stop, fault] = std::from_chars(digits.data(), end, number);
    const bool is_number = fault == std::errc() && stop == end && digits.size() <= most_digits;
    return is_number ? std::optional(number) : std::nullopt;
}

// Of one session, and in memory alone. Anybody may send such a Logon, so it is two numbers however
// many come, and nothing follows from them but what the operator is told.
class RefusedNumbers {
  public:
    // A Logon was refused; `expected` is the session's next number from the firm.
    void refuse(std::uint32_t number, std::uint32_t expected) {
        if (number < expected && (lowest_ == 0 || number < lowest_)) {
            lowest_ = number;
        }
        if (lowest_ != 0) {
            ++refused_;
        }
    }

    // A Logon was accepted; `expected` is the number that was expected until then. From now on none
    // was refused.
    std::optional<NumberClimb> accept(std::uint32_t number, std::uint32_t expected, bool resets) {
        const NumberClimb climb{std::exchange(lowest_, 0), number, std::exchange(refused_, 0)};
        const bool has_climbed =
            climb.from != 0 && climb.from < expected && number >= expected && !resets;
        return has_climbed ? std::optional(climb) : std::nullopt;
    }

  private:
    std::uint32_t lowest_ = 0; // 0: none was below the expected number
    std::uint64_t refused_ = 0;
};

} // namespace gateway

#endif
