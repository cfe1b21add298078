// Prices: whole numbers of 256ths of a point.
#ifndef COMMON_PRICE_H
#define COMMON_PRICE_H

#include <compare>
#include <optional>
#include <string>
#include <string_view>

namespace gateway {

struct Price {
    int in_256ths = 0;

    static constexpr int least = 1;
    static constexpr int greatest = 255'999;

    bool is_in_range() const { return in_256ths >= least && in_256ths <= greatest; }
    // On a grid of 32, 64, 128 or 256 steps a point.
    bool is_on_grid(int grid) const { return in_256ths % (256 / grid) == 0; }

    auto operator<=>(const Price &) const = default;
};

// The prices that a bond may have, both ends among them.
struct Band {
    Price low{Price::least};
    Price high{Price::greatest};

    bool has(Price price) const { return low <= price && price <= high; }
    bool has_all() const {
        return low.in_256ths == Price::least && high.in_256ths == Price::greatest;
    }
};

// Nothing where the text is no price that the venue would take.
std::optional<Price> price_of(std::string_view text);
// As the venue writes it: 99.50390625, 99.5, 5.
std::string text_of(Price price);

} // namespace gateway

#endif
