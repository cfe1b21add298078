#include "service/patient_look.h"

#include <chrono>
#include <condition_variable>
#include <mutex>
#include <set>
#include <system_error>
#include <thread>
#include <utility>

namespace gateway {

namespace {

constexpr auto longest = std::chrono::seconds(2);

// The names of the looks that have not ended. Their threads may outlive whoever began them.
class Looks {
  public:
    // False where another one of the name has not ended for so long.
    bool begin(const std::string &name) {
        std::unique_lock lock(mutex_);
        return changed_.wait_for(lock, longest, [&] { return !names_.contains(name); }) &&
               names_.insert(name).second;
    }
    void end(const std::string &name, bool &has_ended) {
        const std::lock_guard lock(mutex_);
        names_.erase(name);
        has_ended = true;
        changed_.notify_all();
    }
    bool ends_soon(const bool &has_ended) {
        std::unique_lock lock(mutex_);
        return changed_.wait_for(lock, longest, [&] { return has_ended; });
    }

  private:
    std::mutex mutex_;
    std::condition_variable changed_;
    std::set<std::string> names_;
};

} // namespace

bool ends_soon(const std::string &name, std::function<void()> look) {
    static const auto looks = std::make_shared<Looks>();
    if (!looks->begin(name)) {
        return false;
    }
    const auto has_ended = std::make_shared<bool>(false);
    try {
        std::thread([all = looks, has_ended, name, look = std::move(look)] {
            look();
            all->end(name, *has_ended);
        }).detach();
    } catch (const std::system_error &) {
        looks->end(name, *has_ended); // it has not begun
        throw;
    }
    return looks->ends_soon(*has_ended);
}

} // namespace gateway
