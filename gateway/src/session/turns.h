// Shares out work that takes a processor long, and that anybody who connects can ask for.
#ifndef GATEWAY_SESSION_TURNS_H
#define GATEWAY_SESSION_TURNS_H

#include <chrono>
#include <condition_variable>
#include <cstddef>
#include <cstdint>
#include <functional>
#include <list>
#include <map>
#include <mutex>
#include <string>

namespace gateway {

// So many are at work at one time, and one of an address. The next is one of the address that was
// served longest ago, or never: so a firm waits for one turn of each address that asks without end,
// and not for all that each of them has asked for. What an address asks for has its pause before
// each turn, however many connections it asks on. Any thread may call it.
class Turns {
  public:
    using Time = std::chrono::steady_clock::time_point;

    explicit Turns(std::size_t at_once) : free_(at_once) {}
    Turns(const Turns &) = delete;
    Turns &operator=(const Turns &) = delete;

    // Waits for a turn of an address, and works; the address has its next turn from the moment on
    // that `work` returns. False, and nothing was done, where `gives_up` has said so meanwhile,
    // which is asked now and then, with the lock held.
    bool take(const std::string &address, const std::function<bool()> &gives_up,
              const std::function<Time()> &work);

    // How many wait.
    std::size_t waiting() const;

  private:
    struct Waiting {
        std::string address;
        bool has_turn = false;
        std::condition_variable called;
    };
    // What is known of an address.
    struct Served {
        std::uint64_t last = 0; // its last turn, counted over all; 0 for none
        bool now = false;       // it is at work
        Time from{};            // its next turn is no earlier
    };

    bool wait(std::unique_lock<std::mutex> &lock, const std::string &address,
              const std::function<bool()> &gives_up);
    void give_back(const std::string &address, Time from);
    bool may_be_served(const std::string &address) const;
    // The end where none may be served now.
    std::list<Waiting>::iterator next();
    void call_next();
    void forget();

    mutable std::mutex mutex_;
    std::size_t free_;
    std::uint64_t turns_ = 0;
    std::list<Waiting> waiting_; // the first that came first
    std::map<std::string, Served> served_;
};

} // namespace gateway

#endif
