// Makes new identifiers for requests, quotes and responses.
#ifndef DESK_IDENTIFIERS_H
#define DESK_IDENTIFIERS_H

#include "moment.h"

#include <cstdint>
#include <string>

namespace desk {

// Each is used once in a day, also where the journal of an earlier process is lost: the moment at
// which this one began is in it, and then it counts.
class Identifiers {
  public:
    explicit Identifiers(Moment begin);
    // Such as Q5K2M7P-12.
    std::string next(char kind);

  private:
    std::string begin_;
    std::uint64_t count_ = 0;
};

} // namespace desk

#endif
