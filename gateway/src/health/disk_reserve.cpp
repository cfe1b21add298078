#include "health/disk_reserve.h"

#include <sys/statvfs.h>

namespace gateway {

namespace {

constexpr auto pause = std::chrono::milliseconds(10);

} // namespace

std::optional<DiskRoom> room_of(const std::filesystem::path &folder) {
    struct statvfs found {};
    if (::statvfs(folder.c_str(), &found) != 0) {
        return std::nullopt;
    }
    const std::uint64_t unit = found.f_frsize;
    return DiskRoom{unit * found.f_blocks, unit * found.f_bavail};
}

void DiskReserve::look() const {
    const auto now = std::chrono::steady_clock::now();
    if (folder_.empty() || now < next_look_) {
        return;
    }
    next_look_ = now + pause;
    const auto room = room_of(folder_);
    free_ = room ? std::optional(room->free) : std::nullopt;
    const std::uint64_t edge = is_reached_ ? reserve_ + reserve_ / 8 : reserve_;
    is_reached_ = room ? room->free < edge : is_reached_;
}

bool DiskReserve::is_reached() const {
    const std::lock_guard lock(mutex_);
    look();
    return is_reached_;
}

std::optional<std::uint64_t> DiskReserve::free_bytes() const {
    const std::lock_guard lock(mutex_);
    look();
    return free_;
}

} // namespace gateway
