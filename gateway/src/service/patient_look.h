// Looks at a disk that may never answer, such as a folder that another machine lends.
#ifndef GATEWAY_SERVICE_PATIENT_LOOK_H
#define GATEWAY_SERVICE_PATIENT_LOOK_H

#include <exception>
#include <functional>
#include <future>
#include <memory>
#include <optional>
#include <string>

namespace gateway {

// Runs `look` on a thread of its own, one of a name at a time; false where it has not ended within
// two seconds. It is left alone then, so it may use nothing but what it holds itself, and it throws
// nothing. Throws std::system_error where there is no thread for it.
bool ends_soon(const std::string &name, std::function<void()> look);

// What it finds, or throws; nothing where it has not ended by then.
template <typename Found>
std::optional<Found> found_soon(const std::string &name, std::function<Found()> look) {
    const auto found = std::make_shared<std::promise<Found>>();
    auto told = found->get_future();
    const bool has_ended = ends_soon(name, [found, look = std::move(look)] {
        try {
            found->set_value(look());
        } catch (...) {
            found->set_exception(std::current_exception());
        }
    });
    return has_ended ? std::optional<Found>(told.get()) : std::nullopt;
}

} // namespace gateway

#endif
