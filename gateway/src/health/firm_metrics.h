// What is counted of one firm's session.
#ifndef GATEWAY_HEALTH_FIRM_METRICS_H
#define GATEWAY_HEALTH_FIRM_METRICS_H

#include "session/refused_numbers.h"

#include <cstddef>
#include <memory>
#include <mutex>
#include <string>
#include <string_view>

namespace prometheus {
class Counter;
class Gauge;
class Registry;
} // namespace prometheus

namespace gateway {

struct Delivery;

// The families of all firms, of which each has one metric.
class FirmFamilies {
  public:
    explicit FirmFamilies(prometheus::Registry &registry);
    ~FirmFamilies();
    FirmFamilies(const FirmFamilies &) = delete;
    FirmFamilies &operator=(const FirmFamilies &) = delete;

  private:
    friend class FirmMetrics;
    struct Parts;
    std::unique_ptr<Parts> parts_;
};

// Any thread may count.
class FirmMetrics {
  public:
    FirmMetrics(FirmFamilies &families, std::string venue, std::string firm);
    FirmMetrics(const FirmMetrics &) = delete;
    FirmMetrics &operator=(const FirmMetrics &) = delete;

    void logged_on(bool is_on);
    // A message of the firm's that is in the log: its 35, and whether it hits a quote.
    void came(std::string_view type, bool is_hit);
    // What the venue gave it: counted where it refuses.
    void was_given(const Delivery &delivery);
    // Bytes that the firm has not taken yet.
    void waits(std::size_t bytes);
    // By an operator.
    void suspended(bool is_suspended);
    // Its engine may have lost its store: the page says so to the end of the day.
    void may_have_lost_store(const NumberClimb &climb);

    // For a page.
    struct Counts {
        std::string venue;
        std::string firm;
        bool is_on = false;
        bool is_suspended = false;
        double messages = 0;
        double requests = 0;
        double quotes = 0;
        double hits = 0;
        double refusals = 0;
        double waiting_bytes = 0;
        std::string doubt; // what an operator should ask the firm; empty as a rule
    };
    Counts counts() const;

  private:
    const std::string venue_;
    const std::string firm_;
    prometheus::Gauge &logged_on_;
    prometheus::Gauge &waiting_bytes_;
    prometheus::Gauge &suspended_;
    prometheus::Counter &messages_;
    prometheus::Counter &requests_;
    prometheus::Counter &quotes_;
    prometheus::Counter &hits_;
    prometheus::Counter &refusals_;

    mutable std::mutex mutex_; // over what follows
    std::string doubt_;
};

// For an operator: `may have lost its store from=1 to=92 refused=91`.
std::string text_of(const NumberClimb &climb);

// Whether a message of the venue refuses one of the firm's: a Reject (35=3), a refused request
// (35=AG), or a QuoteStatusReport that says so (35=AI with 297=5).
bool refuses(const Delivery &delivery);

} // namespace gateway

#endif
