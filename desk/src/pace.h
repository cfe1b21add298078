// Limits how often something may be done.
#ifndef DESK_PACE_H
#define DESK_PACE_H

#include "moment.h"

#include <algorithm>
#include <chrono>

namespace desk {

// So many in one second, and a burst.
class Pace {
  public:
    Pace(double a_second, double burst, Moment begin)
        : a_second_(a_second), burst_(burst), left_(burst), last_(begin) {}

    bool may_go(Moment at) {
        const double passed = std::chrono::duration<double>(at - last_).count();
        last_ = at;
        left_ = std::min(burst_, left_ + std::max(0.0, passed) * a_second_);
        if (left_ < 1) {
            return false;
        }
        left_ -= 1;
        return true;
    }

  private:
    double a_second_, burst_, left_;
    Moment last_;
};

} // namespace desk

#endif
