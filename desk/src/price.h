// Prices and bands, which the gateway reads as well.
#ifndef DESK_PRICE_H
#define DESK_PRICE_H

#include "common/price.h"

namespace desk {

using gateway::Band;
using gateway::Price;
using gateway::price_of;
using gateway::text_of;

} // namespace desk

#endif
