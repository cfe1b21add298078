#include "base/tar_header.h"

#include <numeric>
#include <stdexcept>

#include <fmt/format.h>

namespace gateway {

namespace {

constexpr std::size_t name_at = 0;
constexpr std::size_t name_bytes = 100;
constexpr std::size_t mode_at = 100;
constexpr std::size_t user_at = 108;
constexpr std::size_t group_at = 116;
constexpr std::size_t size_at = 124;
constexpr std::size_t size_bytes = 12;
constexpr std::size_t time_at = 136;
constexpr std::size_t sum_at = 148;
constexpr std::size_t type_at = 156;
constexpr std::size_t magic_at = 257;
constexpr std::uint64_t most_in_octal = std::uint64_t{8} << 30;

void put(std::string &block, std::size_t at, std::string_view text) {
    block.replace(at, text.size(), text);
}

// Binary, the most significant byte first, behind a byte 0x80.
std::string large(std::uint64_t size) {
    std::string bytes(size_bytes, '\0');
    for (std::size_t at = size_bytes; size != 0; size >>= 8) {
        bytes[--at] = static_cast<char>(size & 0xff);
    }
    bytes[0] = static_cast<char>(0x80);
    return bytes;
}

} // namespace

std::string tar_header(std::string_view name, std::uint64_t size, std::uint64_t seconds) {
    if (name.size() >= name_bytes) {
        throw std::runtime_error(fmt::format("the name {} is too long for an archive", name));
    }
    std::string block(tar_block, '\0');
    put(block, name_at, name);
    put(block, mode_at, "0000640");
    put(block, user_at, "0000000");
    put(block, group_at, "0000000");
    put(block, size_at, size < most_in_octal ? fmt::format("{:011o}", size) : large(size));
    put(block, time_at, fmt::format("{:011o}", seconds));
    put(block, sum_at, "        ");
    put(block, type_at, "0");
    put(block, magic_at, std::string_view("ustar\00000", 8));
    const unsigned sum =
        std::accumulate(block.begin(), block.end(), 0U, [](unsigned before, char each) {
            return before + static_cast<unsigned char>(each);
        });
    put(block, sum_at, fmt::format("{:06o}", sum));
    block[sum_at + 6] = '\0';
    block[sum_at + 7] = ' ';
    return block;
}

std::string tar_padding(std::uint64_t size) {
    const std::size_t behind = static_cast<std::size_t>(size % tar_block);
    return std::string(behind == 0 ? 0 : tar_block - behind, '\0');
}

std::string tar_end() {
    return std::string(2 * tar_block, '\0');
}

} // namespace gateway
