#include "config/address_range.h"

#include <charconv>

#include <arpa/inet.h>

namespace gateway {

namespace {

constexpr unsigned all_bits = 32;

std::optional<std::uint32_t> number_of(const std::string &address) {
    in_addr found{};
    return ::inet_pton(AF_INET, address.c_str(), &found) == 1 ? std::optional(ntohl(found.s_addr))
                                                              : std::nullopt;
}

std::optional<unsigned> bits_of(const std::string &text) {
    unsigned bits = 0;
    const auto [end, fault] = std::from_chars(text.data(), text.data() + text.size(), bits);
    const bool is_whole = fault == std::errc() && end == text.data() + text.size();
    return is_whole && bits <= all_bits ? std::optional(bits) : std::nullopt;
}

} // namespace

bool AddressRange::has(const std::string &address) const {
    const auto number = number_of(address);
    return number && (*number & mask) == first;
}

std::optional<AddressRange> address_range_of(const std::string &text) {
    const std::size_t slash = text.find('/');
    const auto first = number_of(text.substr(0, slash));
    const auto bits =
        slash == std::string::npos ? std::optional(all_bits) : bits_of(text.substr(slash + 1));
    if (!first || !bits) {
        return std::nullopt;
    }
    const std::uint32_t mask = *bits == 0 ? 0 : ~std::uint32_t{0} << (all_bits - *bits);
    return (*first & ~mask) == 0 ? std::optional(AddressRange{*first, mask}) : std::nullopt;
}

} // namespace gateway
