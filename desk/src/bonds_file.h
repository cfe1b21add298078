// Reads bonds.toml, which a venue's operator hands out beside the market's file.
#ifndef DESK_BONDS_FILE_H
#define DESK_BONDS_FILE_H

#include "bond_terms.h"
#include "market.h"

#include <string>

namespace desk {

// Reads the static data of bonds of the market; a bond may have none. Throws std::runtime_error
// with file, place and key.
BondTable read_bonds(const std::string &path, const Market &market);

} // namespace desk

#endif
