// Says what kind of file a path names. Plain C++, for both libraries.
#ifndef COMMON_REGULAR_FILE_H
#define COMMON_REGULAR_FILE_H

#include <filesystem>
#include <system_error>

#include <linux/magic.h>
#include <sys/vfs.h>

namespace gateway {

// A pipe, a device or a socket: whoever opens or reads it may wait without end. Not so what is not
// there.
inline bool may_have_no_end(const std::filesystem::path &path) {
    std::error_code fault;
    const std::filesystem::file_status found = std::filesystem::status(path, fault);
    return std::filesystem::exists(found) && !std::filesystem::is_regular_file(found) &&
           !std::filesystem::is_directory(found);
}

// Whether what is written into a folder stays in memory; false where there is no such folder.
inline bool is_in_memory(const std::filesystem::path &folder) {
    struct statfs found {};
    return ::statfs(folder.c_str(), &found) == 0 &&
           (found.f_type == TMPFS_MAGIC || found.f_type == RAMFS_MAGIC);
}

} // namespace gateway

#endif
