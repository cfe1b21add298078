#include "health/firm_metrics.h"

#include "session/session_event.h"

#include <map>
#include <utility>

#include <fmt/format.h>
#include <prometheus/counter.h>
#include <prometheus/gauge.h>
#include <prometheus/registry.h>

namespace gateway {

namespace {

using prometheus::Counter;
using prometheus::Family;
using prometheus::Gauge;
using prometheus::Registry;

Family<Counter> &counters(Registry &registry, const char *name, const char *help) {
    return prometheus::BuildCounter().Name(name).Help(help).Register(registry);
}

Family<Gauge> &gauges(Registry &registry, const char *name, const char *help) {
    return prometheus::BuildGauge().Name(name).Help(help).Register(registry);
}

std::map<std::string, std::string> labels_of(const std::string &venue, const std::string &firm) {
    std::map<std::string, std::string> labels = {{"firm", firm}};
    if (!venue.empty()) {
        labels["venue"] = venue;
    }
    return labels;
}

// Fields `TAG=VALUE`, each with SOH behind it.
bool has_field(std::string_view body, std::string_view field) {
    for (std::size_t at = body.find(field); at != std::string_view::npos;
         at = body.find(field, at + 1)) {
        const std::size_t end = at + field.size();
        if ((at == 0 || body[at - 1] == '\x01') && end < body.size() && body[end] == '\x01') {
            return true;
        }
    }
    return false;
}

} // namespace

struct FirmFamilies::Parts {
    explicit Parts(Registry &in) : registry(in) {}

    Registry &registry;
    Family<Gauge> &logged_on =
        gauges(registry, "mireseason_firm_logged_on", "1 while the firm is logged on");
    Family<Gauge> &waiting_bytes =
        gauges(registry, "mireseason_firm_waiting_bytes", "bytes that the firm has not taken yet");
    Family<Gauge> &suspended =
        gauges(registry, "mireseason_firm_suspended", "1 while an operator has suspended the firm");
    Family<Counter> &messages =
        counters(registry, "mireseason_firm_messages_total", "messages of the firm in the log");
    Family<Counter> &requests = counters(registry, "mireseason_firm_requests_total",
                                         "requests of the firm in the log (35=R)");
    Family<Counter> &quotes =
        counters(registry, "mireseason_firm_quotes_total", "quotes of the firm in the log (35=S)");
    Family<Counter> &hits = counters(registry, "mireseason_firm_hits_total",
                                     "hits of the firm in the log (35=AJ, 694=1)");
    Family<Counter> &refusals = counters(registry, "mireseason_firm_refusals_total",
                                         "messages of the venue that refuse one of the firm's");
};

FirmFamilies::FirmFamilies(Registry &registry) : parts_(std::make_unique<Parts>(registry)) {}

FirmFamilies::~FirmFamilies() = default;

FirmMetrics::FirmMetrics(FirmFamilies &families, std::string venue, std::string firm)
    : venue_(std::move(venue)), firm_(std::move(firm)),
      logged_on_(families.parts_->logged_on.Add(labels_of(venue_, firm_))),
      waiting_bytes_(families.parts_->waiting_bytes.Add(labels_of(venue_, firm_))),
      suspended_(families.parts_->suspended.Add(labels_of(venue_, firm_))),
      messages_(families.parts_->messages.Add(labels_of(venue_, firm_))),
      requests_(families.parts_->requests.Add(labels_of(venue_, firm_))),
      quotes_(families.parts_->quotes.Add(labels_of(venue_, firm_))),
      hits_(families.parts_->hits.Add(labels_of(venue_, firm_))),
      refusals_(families.parts_->refusals.Add(labels_of(venue_, firm_))) {}

void FirmMetrics::logged_on(bool is_on) {
    logged_on_.Set(is_on ? 1 : 0);
    if (!is_on) {
        waiting_bytes_.Set(0);
    }
}

void FirmMetrics::came(std::string_view type, bool is_hit) {
    messages_.Increment();
    if (type == "R") {
        requests_.Increment();
    } else if (type == "S") {
        quotes_.Increment();
    } else if (is_hit) {
        hits_.Increment();
    }
}

void FirmMetrics::was_given(const Delivery &delivery) {
    if (refuses(delivery)) {
        refusals_.Increment();
    }
}

void FirmMetrics::waits(std::size_t bytes) {
    waiting_bytes_.Set(static_cast<double>(bytes));
}

void FirmMetrics::suspended(bool is_suspended) {
    suspended_.Set(is_suspended ? 1 : 0);
}

void FirmMetrics::may_have_lost_store(const NumberClimb &climb) {
    const std::lock_guard lock(mutex_);
    doubt_ = text_of(climb);
}

std::string text_of(const NumberClimb &climb) {
    return fmt::format("may have lost its store from={} to={} refused={}", climb.from, climb.to,
                       climb.refused);
}

FirmMetrics::Counts FirmMetrics::counts() const {
    const std::lock_guard lock(mutex_);
    return {venue_,
            firm_,
            logged_on_.Value() > 0,
            suspended_.Value() > 0,
            messages_.Value(),
            requests_.Value(),
            quotes_.Value(),
            hits_.Value(),
            refusals_.Value(),
            waiting_bytes_.Value(),
            doubt_};
}

bool refuses(const Delivery &delivery) {
    return delivery.type == "3" || delivery.type == "AG" ||
           (delivery.type == "AI" && has_field(delivery.wire, "297=5"));
}

} // namespace gateway
