// Holds back room on the log's disk for messages that take something back.
#ifndef GATEWAY_HEALTH_DISK_RESERVE_H
#define GATEWAY_HEALTH_DISK_RESERVE_H

#include <chrono>
#include <cstdint>
#include <filesystem>
#include <mutex>
#include <optional>

namespace gateway {

// Any thread may ask. The file system is asked a hundred times a second at most, so that a firm may
// write for so long behind the edge.
class DiskReserve {
  public:
    // Nothing is held back where no folder of the disk is known, and where the reserve is 0 bytes.
    DiskReserve(std::filesystem::path folder, std::uint64_t reserve)
        : folder_(std::move(folder)), reserve_(folder_.empty() ? 0 : reserve) {}

    // Whether less is free than is held back. Once it was so, it is until there is an eighth more.
    bool is_reached() const;
    // Nothing where it is not known.
    std::optional<std::uint64_t> free_bytes() const;
    std::uint64_t reserve() const { return reserve_; }

  private:
    // The lock is held.
    void look() const;

    const std::filesystem::path folder_;
    const std::uint64_t reserve_;
    mutable std::mutex mutex_;
    mutable std::chrono::steady_clock::time_point next_look_;
    mutable std::optional<std::uint64_t> free_;
    mutable bool is_reached_ = false;
};

// What a folder's file system has in all, and what of it is free for this process; nothing where
// that can't be asked.
struct DiskRoom {
    std::uint64_t bytes = 0;
    std::uint64_t free = 0;
};
std::optional<DiskRoom> room_of(const std::filesystem::path &folder);

} // namespace gateway

#endif
