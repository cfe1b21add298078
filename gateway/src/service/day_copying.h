// Copies days in a thread of its own, so that the day that goes on does not wait.
#ifndef GATEWAY_SERVICE_DAY_COPYING_H
#define GATEWAY_SERVICE_DAY_COPYING_H

#include <chrono>
#include <condition_variable>
#include <functional>
#include <mutex>
#include <optional>
#include <stop_token>
#include <string>
#include <thread>

namespace gateway {

// A place of copies may be another machine's, which does not answer: nobody waits for it here.
class DayCopying {
  public:
    using Copy = std::function<void(const std::string &before, const std::stop_token &stop)>;

    explicit DayCopying(Copy copy);

    // Copies the days before this one, once what was asked for earlier is done. False where that
    // goes on still.
    bool ask(const std::string &before);
    // Asks it to end. False where it has not done so by then: whoever destroys it waits.
    bool ends_within(std::chrono::milliseconds longest);

  private:
    void run(const std::stop_token &stop);

    const Copy copy_;
    std::mutex mutex_; // over what follows
    std::condition_variable_any changed_;
    std::optional<std::string> asked_;
    bool is_at_work_ = false;
    bool has_ended_ = false;
    std::jthread thread_;
};

} // namespace gateway

#endif
