// Sends several files as one stream: POSIX.1-1988 tar (ustar).
#ifndef GATEWAY_BASE_TAR_HEADER_H
#define GATEWAY_BASE_TAR_HEADER_H

#include <cstdint>
#include <string>
#include <string_view>

namespace gateway {

// Bytes of a block: a header has one, and a file's bytes are filled up with zeros to whole ones.
constexpr std::size_t tar_block = 512;

// What stands in front of a plain file's bytes; its mode is 0640. A size from 8 GiB on is written
// as GNU tar writes it. Throws std::runtime_error where the name has more than 99 bytes.
std::string tar_header(std::string_view name, std::uint64_t size, std::uint64_t seconds);

// What stands behind them.
std::string tar_padding(std::uint64_t size);

// What stands behind the last file.
std::string tar_end();

} // namespace gateway

#endif
