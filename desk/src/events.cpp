#include "events.h"

#include "common/shown.h"
#include "moment.h"

#include <cstdio>

namespace desk {

void Events::tell(std::string_view text) {
    constexpr std::size_t most_bytes = 400;
    const std::string line =
        fix_text(now()) + " " + firm_ + " " + gateway::shown(text.substr(0, most_bytes)) + "\n";
    const std::lock_guard lock(mutex_);
    std::fwrite(line.data(), 1, line.size(), stderr);
}

} // namespace desk
