// Answers whoever looks after the service, on this machine alone: how it is, what it counts, and a
// page with both.
#ifndef GATEWAY_SERVICE_MONITOR_H
#define GATEWAY_SERVICE_MONITOR_H

#include "health/condition.h"

#include <functional>
#include <memory>
#include <string>

namespace gateway {

// What is asked for each time; of the monitor's thread.
struct MonitorSources {
    std::function<Condition()> condition;
    std::function<std::string()> metrics; // Prometheus' text
    std::function<std::string()> page;    // HTML
};

// Serves at a port of 127.0.0.1, on a thread of its own, to a browser or a program of this machine
// alone:
//
//     /metrics   Prometheus' text
//     /health    200 as long as every part that does the work shows that it does, else 503
//     /ready     200 where firms may log on, else 503
//     /          a page for the operator, which its one script refreshes
//
// The answers of /health and /ready are one line that says why.
class Monitor {
  public:
    // At none where the port is 0. Throws std::runtime_error where the port can't be had.
    Monitor(unsigned short port, MonitorSources sources);
    ~Monitor();
    Monitor(const Monitor &) = delete;
    Monitor &operator=(const Monitor &) = delete;

  private:
    class Parts;
    std::unique_ptr<Parts> parts_;
};

} // namespace gateway

#endif
