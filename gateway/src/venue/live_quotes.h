// The dealers' quotes that are live now, and who sent each.
#ifndef GATEWAY_VENUE_LIVE_QUOTES_H
#define GATEWAY_VENUE_LIVE_QUOTES_H

#include "venue/given_fields.h"

#include <map>
#include <mutex>
#include <string>
#include <string_view>
#include <vector>

namespace gateway {

// Read off what the venue tells the dealers: a quote lives from its 297=0 to its replacement, the
// report that it is withdrawn or lifted, or the notice that its request is closed. All that the
// venue gives of a day may be given again, from its beginning.
class LiveQuotes {
  public:
    struct Live {
        std::string quote;   // its name (117)
        std::string request; // the dealer's name of what it is on (131)
        std::string trader;  // who sent it (50)
    };

    // A message of the venue to a firm, as it gave it for the entry of this line; one thread.
    void was_given(std::string_view line, const std::string &firm, const GivenFields &message);
    // Those of a dealer, in the order of their entries; of any thread.
    std::vector<Live> of(const std::string &firm) const;

  private:
    mutable std::mutex mutex_;
    std::map<std::string, std::vector<Live>> live_; // by dealer
};

} // namespace gateway

#endif
