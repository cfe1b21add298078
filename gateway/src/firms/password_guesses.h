// Counts wrong passwords by address, and makes that address wait for them.
#ifndef GATEWAY_FIRMS_PASSWORD_GUESSES_H
#define GATEWAY_FIRMS_PASSWORD_GUESSES_H

#include <chrono>
#include <cstddef>
#include <functional>
#include <map>
#include <mutex>
#include <string>
#include <utility>

namespace gateway {

// Each wrong password of an address makes it wait twice as long for the next Logon to be judged, up
// to a quarter of a second; after a minute without one it waits no more. Any thread may call it.
class PasswordGuesses {
  public:
    using Clock = std::chrono::steady_clock;
    using Now = std::function<Clock::time_point()>;

    explicit PasswordGuesses(Now now = &Clock::now) : now_(std::move(now)) {}

    // A wrong one: how many there were of this address, one after the other.
    std::size_t wrong(const std::string &address);
    std::size_t wrong_of(const std::string &address);
    // From when on a Logon of the address is judged.
    Clock::time_point judged_from(const std::string &address);

  private:
    struct Wrong {
        std::size_t count = 0;
        Clock::time_point last;
    };

    // The lock is held.
    void forget(Clock::time_point now);

    const Now now_;
    std::mutex mutex_;
    std::map<std::string, Wrong> wrong_;
};

} // namespace gateway

#endif
