#include "log/act_event.h"

#include "base/escaped.h"

#include <fmt/format.h>

namespace gateway {

std::string event_of(const Act &act) {
    const std::string because =
        act.because.empty() ? "" : fmt::format(" because=\"{}\"", escaped(act.because));
    return fmt::format("act=\"{} {}\"{}", act.who, act.words, because);
}

} // namespace gateway
