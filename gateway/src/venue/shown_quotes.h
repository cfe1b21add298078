// Finds the bond of a quote that an investor was shown.
#ifndef GATEWAY_VENUE_SHOWN_QUOTES_H
#define GATEWAY_VENUE_SHOWN_QUOTES_H

#include "venue/given_fields.h"

#include <cstdint>
#include <functional>
#include <map>
#include <mutex>
#include <string>
#include <string_view>
#include <vector>

namespace gateway {

// Read off the quotes (35=S) that the venue gives to investors: a hit names one by QuoteID (117),
// and no bond. The venue numbers those of an investor Q1, Q2 and so on, so that each is no more
// here than which bond it was. All that the venue gives of a day may be given again, from its
// beginning.
class ShownQuotes {
  public:
    // A message of the venue to a firm, as it gave it; one thread.
    void was_given(const std::string &firm, const GivenFields &message);
    // The bond of the quote that an investor names; empty where it was shown none of this name. Of
    // any thread.
    std::string bond_of(const std::string &firm, std::string_view quote) const;

  private:
    // Where it stands in `bonds_`. The lock is held.
    std::uint32_t place_of(std::string_view bond);

    mutable std::mutex mutex_;
    std::vector<std::string> bonds_;
    std::map<std::string, std::uint32_t, std::less<>> places_; // of each in `bonds_`
    std::map<std::string, std::vector<std::uint32_t>> shown_; // such places, in the order of Q1, Q2
};

} // namespace gateway

#endif
