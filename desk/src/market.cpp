#include "market.h"

#include "toml_file.h"

#include <algorithm>

namespace desk {

namespace {

// Limits of the venue's own configuration.
constexpr Quantity most_exposure = 1'000'000'000'000'000, most_quantity = 1'000'000'000'000;
constexpr int most_quotes = 4096, most_requests = 1024;

int grid_of(const TomlTable &row) {
    const auto grid = row.has("grid") ? static_cast<int>(row.number("grid", 32, 256)) : 256;
    if (grid != 32 && grid != 64 && grid != 128 && grid != 256) {
        row.fail("'grid' has to be 32, 64, 128 or 256");
    }
    return grid;
}

Price end_of(const TomlTable &row, const std::string &key, int grid) {
    const std::optional<Price> price = price_of(row.text(key));
    if (!price || !price->is_on_grid(grid)) {
        row.fail("'" + key + "' has to be a price on the grid of 1/" + std::to_string(grid));
    }
    return *price;
}

Band band_of(const TomlTable &row, int grid) {
    if (!row.has("low") && !row.has("high")) {
        return {};
    }
    const Band band{end_of(row, "low", grid), end_of(row, "high", grid)};
    if (band.low > band.high) {
        row.fail("'low' is above 'high'");
    }
    return band;
}

// In version 1 of the venue's configuration every grid is 256, and before version 3 no bond has a
// band.
Bond bond_of(const TomlTable &row, std::int64_t version) {
    Bond bond{row.text("id"), row.has("name") ? row.text("name") : row.text("id"), grid_of(row)};
    bond.grid = version > 1 ? bond.grid : 256;
    bond.band = version > 2 ? band_of(row, bond.grid) : Band{};
    return bond;
}

FirmLimits dealer_limits(const TomlTable &row) {
    FirmLimits limits;
    limits.exposure = row.number("exposure", 1, most_exposure);
    limits.quotes = static_cast<int>(row.number("quotes", 1, most_quotes));
    return limits;
}

FirmLimits investor_limits(const TomlTable &row) {
    FirmLimits limits;
    limits.quantity = row.number("quantity", 1, most_quantity);
    limits.requests = static_cast<int>(row.number("requests", 1, most_requests));
    limits.open = static_cast<int>(row.number("open", 1, most_requests));
    return limits;
}

FirmLimits limits_of(const TomlTable &file, const std::string &firm, Role role) {
    const char *key = role == Role::dealer ? "dealer" : "investor";
    for (const TomlTable &row : file.tables(key)) {
        if (row.text("name") == firm) {
            return role == Role::dealer ? dealer_limits(row) : investor_limits(row);
        }
    }
    file.fail("there is no [[" + std::string(key) + "]] with the name '" + firm + "'");
}

} // namespace

const Bond *Market::bond(const std::string &id) const {
    const auto found =
        std::find_if(bonds.begin(), bonds.end(), [&](const Bond &one) { return one.id == id; });
    return found == bonds.end() ? nullptr : &*found;
}

Market read_market(const std::string &path, const std::string &firm, Role role) {
    const toml::table text = read_toml(path);
    const TomlTable file(path, "", text);
    const std::int64_t version = file.number("version", 1, 3);
    Market market;
    for (const TomlTable &row : file.tables("bond")) {
        market.bonds.push_back(bond_of(row, version));
    }
    for (const TomlTable &row : file.tables("dealer")) {
        market.dealers.push_back(row.text("name"));
    }
    market.limits = limits_of(file, firm, role);
    return market;
}

} // namespace desk
