// The header of a file within a stream: by POSIX.1-1988, and for a large file as GNU tar has it.
#define DOCTEST_CONFIG_IMPLEMENT_WITH_MAIN
#include <doctest/doctest.h>

#include "base/tar_header.h"

#include <cstdint>
#include <stdexcept>
#include <string>

namespace gateway::tests {

namespace {

constexpr std::uint64_t gibibyte = std::uint64_t{1} << 30;

// The field of a header: from a byte on, so many.
std::string field(const std::string &header, std::size_t at, std::size_t bytes) {
    return header.substr(at, bytes);
}

// Of all bytes, with spaces in the place of the sum's own.
unsigned sum_of(std::string header) {
    header.replace(148, 8, 8, ' ');
    unsigned sum = 0;
    for (const char each : header) {
        sum += static_cast<unsigned char>(each);
    }
    return sum;
}

} // namespace

TEST_CASE("a_header_has_each_field_at_its_place") {
    const std::string header = tar_header("day-20261127.db", 10, 8);
    CHECK(header.size() == 512);
    CHECK(field(header, 0, 16) == std::string("day-20261127.db\0", 16));
    CHECK(field(header, 100, 8) == std::string("0000640\0", 8));
    CHECK(field(header, 124, 12) == std::string("00000000012\0", 12));
    CHECK(field(header, 136, 12) == std::string("00000000010\0", 12));
    CHECK(field(header, 156, 1) == "0");
    CHECK(field(header, 257, 8) == std::string("ustar\00000", 8));
    CHECK(std::stoul(field(header, 148, 6), nullptr, 8) == sum_of(header));
    CHECK(field(header, 154, 2) == std::string("\0 ", 2));
}

TEST_CASE("a_large_file_is_written_in_binary") {
    CHECK(field(tar_header("a", 8 * gibibyte - 1, 0), 124, 12) == std::string("77777777777\0", 12));
    CHECK(field(tar_header("a", 8 * gibibyte, 0), 124, 12) ==
          std::string("\x80\0\0\0\0\0\0\2\0\0\0\0", 12));
    CHECK(field(tar_header("a", 8 * gibibyte + 258, 0), 124, 12) ==
          std::string("\x80\0\0\0\0\0\0\2\0\0\1\2", 12));
}

TEST_CASE("a_name_has_an_end") {
    CHECK_NOTHROW(tar_header(std::string(99, 'a'), 0, 0));
    CHECK_THROWS_AS(tar_header(std::string(100, 'a'), 0, 0), std::runtime_error);
}

TEST_CASE("what_stands_behind_a_file_fills_its_block") {
    for (const std::uint64_t size : {0, 1, 511, 512, 513}) {
        CHECK((size + tar_padding(size).size()) % 512 == 0);
        CHECK(tar_padding(size).size() < 512);
    }
    CHECK(tar_end() == std::string(1024, '\0'));
}

} // namespace gateway::tests
