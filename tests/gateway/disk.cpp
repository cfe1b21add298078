// Stands between a process and its database's files, by LD_PRELOAD: it keeps what is on the disk
// after each sync, makes syncs slow, makes them fail, and makes the disk full from a given sync on.
//
//     DISK_COPIES=FOLDER  after each sync of a file *.db or *.db-wal: a copy of the file,
//                         FOLDER/N.db or FOLDER/N.wal, and a line `N KIND BEGAN ENDED` in
//                         FOLDER/syncs, the nanoseconds of the monotonic clock at which the sync
//                         began and ended. N counts the syncs from 1, and goes on where a process
//                         before this one has ended
//     DISK_SLOW=MS        each sync of such a file takes so much longer
//     DISK_SLOW_IN=FILE   likewise by as many milliseconds as the file says when the sync begins,
//                         and by none where there is no such file
//     DISK_BROKEN=FILE    a sync that begins while there is such a file fails in the end: EIO
//     DISK_FULL=N         from the end of the Nth sync on, each write to such a file fails: ENOSPC
//     DISK_END=FILE       from when FILE says `PROCESS N` on, that process's calls are counted which
//                         change something outside of it, in whatever file or connection: in the
//                         place of the Nth it ends, by SIGKILL
#include <dlfcn.h>
#include <fcntl.h>
#include <signal.h>
#include <sys/socket.h>
#include <sys/types.h>
#include <time.h>
#include <unistd.h>

#include <algorithm>
#include <atomic>
#include <cerrno>
#include <cstdlib>
#include <filesystem>
#include <fstream>
#include <iterator>
#include <mutex>
#include <string>
#include <system_error>

namespace {

std::string path_of(int file) {
    std::error_code fault;
    return std::filesystem::read_symlink("/proc/self/fd/" + std::to_string(file), fault).string();
}

bool ends_with(const std::string &text, const std::string &end) {
    return text.size() >= end.size() &&
           text.compare(text.size() - end.size(), end.size(), end) == 0;
}

// `db`, `wal`, or nothing where the file is none of the database's.
std::string kind_of(int file) {
    const int before = errno;
    const std::string path = path_of(file);
    errno = before;
    if (ends_with(path, ".db"))
        return "db";
    return ends_with(path, ".db-wal") ? "wal" : "";
}

long number_in(const char *name) {
    const char *text = std::getenv(name);
    return text ? std::atol(text) : 0;
}

long slow_now() {
    long more = 0;
    if (const char *file = std::getenv("DISK_SLOW_IN"))
        std::ifstream(file) >> more;
    return number_in("DISK_SLOW") + more;
}

long long nanoseconds() {
    timespec now{};
    clock_gettime(CLOCK_MONOTONIC, &now);
    return now.tv_sec * 1'000'000'000LL + now.tv_nsec;
}

std::atomic<long> syncs{0};
std::mutex one_sync;

long lines_in(const std::string &file) {
    std::ifstream lines(file);
    return std::count(std::istreambuf_iterator<char>(lines), std::istreambuf_iterator<char>(),
                      '\n');
}

void keep(int file, const std::string &kind, long number, long long began) {
    const char *folder = std::getenv("DISK_COPIES");
    if (!folder)
        return;
    const std::string base = std::string(folder) + "/";
    static const long kept_before = lines_in(base + "syncs");
    number += kept_before;
    std::filesystem::copy_file(path_of(file), base + std::to_string(number) + "." + kind,
                               std::filesystem::copy_options::overwrite_existing);
    std::ofstream(base + "syncs", std::ios::app)
        << number << ' ' << kind << ' ' << began << ' ' << nanoseconds() << '\n';
}

bool is_broken() {
    const char *file = std::getenv("DISK_BROKEN");
    return file && std::filesystem::exists(file);
}

// To be called before each call that changes something outside of the process.
void may_end_here() {
    static const char *const file = std::getenv("DISK_END");
    static std::atomic<long> calls{0};
    if (!file)
        return;
    const int before = errno;
    long process = 0, last = 0;
    if (!(std::ifstream(file) >> process >> last) || process != getpid())
        calls = 0;
    else if (++calls >= last)
        kill(getpid(), SIGKILL);
    errno = before;
}

int synced(int file, const char *call) {
    using Sync = int (*)(int);
    may_end_here();
    const auto real = reinterpret_cast<Sync>(dlsym(RTLD_NEXT, call));
    const std::string kind = kind_of(file);
    if (kind.empty())
        return real(file);
    const std::lock_guard<std::mutex> lock(one_sync);
    const long long began = nanoseconds();
    const bool breaks = is_broken();
    const long slow = slow_now();
    const timespec pause{slow / 1000, slow % 1000 * 1'000'000};
    nanosleep(&pause, nullptr);
    if (breaks) {
        errno = EIO;
        return -1;
    }
    const int result = real(file);
    if (result == 0)
        keep(file, kind, ++syncs, began);
    return result;
}

bool is_full(int file) {
    const long from = number_in("DISK_FULL");
    if (from == 0 || syncs.load() < from || kind_of(file).empty())
        return false;
    errno = ENOSPC;
    return true;
}

template <typename Call> Call real(const char *name) {
    return reinterpret_cast<Call>(dlsym(RTLD_NEXT, name));
}

} // namespace

extern "C" {

int fsync(int file) {
    return synced(file, "fsync");
}
int fdatasync(int file) {
    return synced(file, "fdatasync");
}

ssize_t write(int file, const void *data, size_t size) {
    static const auto call = real<ssize_t (*)(int, const void *, size_t)>("write");
    may_end_here();
    return is_full(file) ? -1 : call(file, data, size);
}
ssize_t pwrite(int file, const void *data, size_t size, off_t place) {
    static const auto call = real<ssize_t (*)(int, const void *, size_t, off_t)>("pwrite");
    may_end_here();
    return is_full(file) ? -1 : call(file, data, size, place);
}
ssize_t pwrite64(int file, const void *data, size_t size, off64_t place) {
    static const auto call = real<ssize_t (*)(int, const void *, size_t, off64_t)>("pwrite64");
    may_end_here();
    return is_full(file) ? -1 : call(file, data, size, place);
}
int posix_fallocate(int file, off_t place, off_t size) {
    static const auto call = real<int (*)(int, off_t, off_t)>("posix_fallocate");
    may_end_here();
    return is_full(file) ? ENOSPC : call(file, place, size);
}
ssize_t send(int to, const void *data, size_t size, int flags) {
    static const auto call = real<ssize_t (*)(int, const void *, size_t, int)>("send");
    may_end_here();
    return call(to, data, size, flags);
}
int rename(const char *from, const char *to) noexcept {
    static const auto call = real<int (*)(const char *, const char *)>("rename");
    may_end_here();
    return call(from, to);
}
int ftruncate64(int file, off64_t size) noexcept {
    static const auto call = real<int (*)(int, off64_t)>("ftruncate64");
    may_end_here();
    return call(file, size);
}

} // extern "C"
