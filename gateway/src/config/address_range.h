// The addresses from which a firm may connect.
#ifndef GATEWAY_CONFIG_ADDRESS_RANGE_H
#define GATEWAY_CONFIG_ADDRESS_RANGE_H

#include <cstdint>
#include <optional>
#include <string>

namespace gateway {

// Those of IPv4 that have the same first bits.
struct AddressRange {
    std::uint32_t first = 0;
    std::uint32_t mask = 0;

    // Whether the text is an address of it.
    bool has(const std::string &address) const;

    bool operator==(const AddressRange &) const = default;
};

// Reads A.B.C.D or A.B.C.D/BITS, and nothing else: the bits behind BITS are 0.
std::optional<AddressRange> address_range_of(const std::string &text);

} // namespace gateway

#endif
