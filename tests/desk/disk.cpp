// Stands between a desk and its disk, by LD_PRELOAD: it tells what is synchronised or renamed, and
// lets the disk stall.
//
//     DISK_TOLD=FILE     each call is a line `THREAD CALL PATH` there: `waits` before a sync, `sync`
//                        when it is over, `rename` with the new name
//     DISK_STALLED=FILE  no sync ends while there is such a file
#include <dlfcn.h>
#include <fcntl.h>
#include <sys/syscall.h>
#include <time.h>
#include <unistd.h>

#include <cerrno>
#include <cstdlib>
#include <filesystem>
#include <string>
#include <system_error>

namespace {

std::string path_of(int file) {
    std::error_code fault;
    return std::filesystem::read_symlink("/proc/self/fd/" + std::to_string(file), fault).string();
}

// One write, so that the lines of two threads do not mix.
void tell(const char *call, const std::string &path) {
    const char *const told = std::getenv("DISK_TOLD");
    if (!told)
        return;
    const std::string line = std::to_string(::syscall(SYS_gettid)) + " " + call + " " + path + "\n";
    const int file = ::open(told, O_WRONLY | O_CREAT | O_APPEND | O_CLOEXEC, 0600);
    if (file < 0 || ::write(file, line.data(), line.size()) < 0)
        std::abort();
    ::close(file);
}

void wait_for_the_disk() {
    const char *const stalled = std::getenv("DISK_STALLED");
    const timespec pause{0, 10'000'000};
    while (stalled && ::access(stalled, F_OK) == 0)
        nanosleep(&pause, nullptr);
}

int synced(int file, const char *call) {
    using Sync = int (*)(int);
    const auto real = reinterpret_cast<Sync>(dlsym(RTLD_NEXT, call));
    const std::string path = path_of(file);
    tell("waits", path);
    wait_for_the_disk();
    const int result = real(file);
    const int fault = errno;
    tell("sync", path);
    errno = fault;
    return result;
}

} // namespace

extern "C" {

int fsync(int file) {
    return synced(file, "fsync");
}
int fdatasync(int file) {
    return synced(file, "fdatasync");
}
int rename(const char *from, const char *to) noexcept {
    using Rename = int (*)(const char *, const char *);
    static const auto real = reinterpret_cast<Rename>(dlsym(RTLD_NEXT, "rename"));
    const int result = real(from, to);
    const int fault = errno;
    tell("rename", to);
    errno = fault;
    return result;
}

} // extern "C"
