// The requests that are open now, for those who look after the venue.
#ifndef GATEWAY_VENUE_OPEN_REQUESTS_H
#define GATEWAY_VENUE_OPEN_REQUESTS_H

#include "venue/given_fields.h"

#include <map>
#include <mutex>
#include <string>
#include <string_view>
#include <utility>
#include <vector>

namespace gateway {

// Read off what the venue tells the investors: a request is open from the QuoteStatusReport that
// accepts it to the one that ends it. All that the venue gives of a day may be given again, from
// its beginning.
class OpenRequests {
  public:
    struct Open {
        std::string firm;     // the investor
        std::string request;  // its name (131)
        std::string accepted; // HH:MM:SS.sss, in UTC
    };

    // A message of the venue to a firm, as it gave it; one thread.
    void was_given(const std::string &firm, const GivenFields &message);
    // By investor, and by name; of any thread.
    std::vector<Open> all() const;
    bool are_none() const;

  private:
    mutable std::mutex mutex_;
    std::map<std::pair<std::string, std::string>, std::string> open_; // when each was accepted
};

} // namespace gateway

#endif
