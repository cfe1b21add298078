// The thread that tells the venue's clock of each deadline that has come.
#ifndef GATEWAY_DAY_SWEEPER_H
#define GATEWAY_DAY_SWEEPER_H

#include "common/moment.h"
#include "log/log.h"
#include "venue/venue_progress.h"

#include <stop_token>
#include <thread>

namespace gateway {

// Commits a sweep when a deadline has come, after the entry whose mark told it: what came since
// may have ended the request. Where messages come so fast that there is always one, they are held
// until the venue has answered those before. So no sweep is committed for which nothing is due.
class Sweeper {
  public:
    Sweeper(VenueProgress &progress, Log &log, DayClock &clock);
    ~Sweeper();
    Sweeper(const Sweeper &) = delete;
    Sweeper &operator=(const Sweeper &) = delete;

    // Once.
    void start();
    // No sweep is committed after it.
    void stop();

  private:
    void run(const std::stop_token &stop);
    void sweep(VenueProgress::Deadline due, const std::stop_token &stop);
    // Whether it was committed; then it is answered.
    bool sweep_behind(const VenueProgress::Deadline &due, const std::stop_token &stop);
    void sweep_held(Moment moment, const std::stop_token &stop);

    VenueProgress &progress_;
    Log &log_;
    DayClock &clock_;
    std::jthread thread_;
};

} // namespace gateway

#endif
