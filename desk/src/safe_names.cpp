#include "safe_names.h"

#include "common/descriptor.h"

#include <cerrno>
#include <cstdio>
#include <cstring>
#include <stdexcept>

#include <fcntl.h>
#include <unistd.h>

namespace desk {

bool synchronise_names(const std::string &path) {
    const std::size_t end = path.rfind('/');
    const std::string name = end == std::string::npos ? "." : path.substr(0, end + 1);
    const gateway::Descriptor folder(::open(name.c_str(), O_RDONLY | O_DIRECTORY | O_CLOEXEC));
    return folder.number() >= 0 && ::fsync(folder.number()) == 0;
}

void rename_safely(const std::string &from, const std::string &to) {
    if (std::rename(from.c_str(), to.c_str()) != 0 || !synchronise_names(to)) {
        throw std::runtime_error(from + " can't be renamed to " + to + ": " + std::strerror(errno));
    }
}

} // namespace desk
