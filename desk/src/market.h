// Reads what no message of the venue says: its bonds with their grids and bands, the names of its
// dealers, and the firm's own limits. They stand in a file that the venue's operator hands out.
#ifndef DESK_MARKET_H
#define DESK_MARKET_H

#include "price.h"
#include "terms.h"

#include <string>
#include <vector>

namespace desk {

struct Bond {
    std::string id;   // SecurityID (48)
    std::string name; // for the eye; the id where the file has none
    int grid = 256;   // steps a point
    Band band = {};   // of all prices where the file has none
};

// Of a dealer exposure and quotes, of an investor the others.
struct FirmLimits {
    Quantity exposure = 0;
    int quotes = 0;
    Quantity quantity = 0;
    int requests = 0;
    int open = 0;
};

struct Market {
    std::vector<Bond> bonds;
    std::vector<std::string> dealers;
    FirmLimits limits;

    // Null where the market does not have it.
    const Bond *bond(const std::string &id) const;
};

// Reads what the venue's configuration has of bonds, of the dealers' names, and of the firm's own
// row (docs/FORMATS.md, `Configuration`); all else may be left out. A bond may have a `name` there.
// Throws std::runtime_error with what is wrong.
Market read_market(const std::string &path, const std::string &firm, Role role);

} // namespace desk

#endif
