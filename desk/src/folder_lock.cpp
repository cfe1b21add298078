#include "folder_lock.h"

#include <cerrno>
#include <cstring>
#include <filesystem>
#include <stdexcept>

#include <fcntl.h>
#include <sys/file.h>

namespace desk {

FolderLock::FolderLock(const std::string &folder) {
    std::error_code fault;
    std::filesystem::create_directories(folder, fault);
    std::filesystem::permissions(folder, std::filesystem::perms::owner_all, fault);
    const std::string path = folder + "/lock";
    file_ = gateway::Descriptor(::open(path.c_str(), O_RDWR | O_CREAT | O_CLOEXEC, 0600));
    if (file_.number() < 0) {
        throw std::runtime_error(path + " can't be opened: " + std::strerror(errno));
    }
    if (::flock(file_.number(), LOCK_EX | LOCK_NB) != 0) {
        throw std::runtime_error(folder + ": another desk has this folder");
    }
}

} // namespace desk
