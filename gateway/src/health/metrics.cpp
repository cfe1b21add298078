#include "health/metrics.h"

#include "common/version.h"

#include <map>
#include <mutex>

#include <prometheus/counter.h>
#include <prometheus/gauge.h>
#include <prometheus/histogram.h>
#include <prometheus/registry.h>
#include <prometheus/text_serializer.h>

namespace gateway {

namespace {

using prometheus::Counter;
using prometheus::Family;
using prometheus::Gauge;
using prometheus::Histogram;
using prometheus::Registry;

Counter &counter(Registry &registry, const char *name, const char *help) {
    return prometheus::BuildCounter().Name(name).Help(help).Register(registry).Add({});
}

Gauge &gauge(Registry &registry, const char *name, const char *help) {
    return prometheus::BuildGauge().Name(name).Help(help).Register(registry).Add({});
}

Histogram &seconds(Registry &registry, const char *name, const char *help) {
    static constexpr double bounds[] = {
        0.000005, 0.00001, 0.00002, 0.00005, 0.0001, 0.00015, 0.0002, 0.0003, 0.0005, 0.0007,
        0.001,    0.002,   0.005,   0.01,    0.02,   0.05,    0.1,    0.2,    0.5,    1.0};
    return prometheus::BuildHistogram().Name(name).Help(help).Register(registry).Add(
        {}, Histogram::BucketBoundaries(std::begin(bounds), std::end(bounds)));
}

// A label that tells one venue of several from the others.
std::map<std::string, std::string> of_venue(const std::string &venue) {
    return venue.empty() ? std::map<std::string, std::string>{}
                         : std::map<std::string, std::string>{{"venue", venue}};
}

Family<Gauge> &gauges(Registry &registry, const char *name, const char *help) {
    return prometheus::BuildGauge().Name(name).Help(help).Register(registry);
}

double in_seconds(std::chrono::sys_seconds moment) {
    return static_cast<double>(moment.time_since_epoch().count());
}

double in_seconds(Metrics::Duration duration) {
    return std::chrono::duration<double>(duration).count();
}

} // namespace

struct Metrics::Parts {
    std::shared_ptr<Registry> registry = std::make_shared<Registry>();
    Counter &commits = counter(*registry, "mireseason_commits_total", "transactions of the log");
    Counter &entries = counter(*registry, "mireseason_entries_total", "entries of the log");
    Counter &sent = counter(*registry, "mireseason_sent_total", "messages of the venue logged");
    Counter &delivered = counter(*registry, "mireseason_delivered_total",
                                 "messages of the venue handed to sessions");
    Counter &connections =
        counter(*registry, "mireseason_connections_total", "connections that were taken");
    Counter &logons = counter(*registry, "mireseason_logons_total", "sessions that logged on");
    Counter &starts =
        counter(*registry, "mireseason_venue_starts_total", "starts of the venue's process");
    Family<Counter> &refused = prometheus::BuildCounter()
                                   .Name("mireseason_refused_total")
                                   .Help("connections and Logons that were refused")
                                   .Register(*registry);
    Family<Counter> &dropped = prometheus::BuildCounter()
                                   .Name("mireseason_dropped_total")
                                   .Help("messages of firms that did not reach the log")
                                   .Register(*registry);
    Family<Counter> &wrong_passwords = prometheus::BuildCounter()
                                           .Name("mireseason_wrong_passwords_total")
                                           .Help("Logons of a firm with a wrong password")
                                           .Register(*registry);
    Gauge &open = gauge(*registry, "mireseason_connections", "connections that are open");
    Gauge &sessions = gauge(*registry, "mireseason_sessions", "sessions that are logged on");
    Counter &clock_steps = counter(*registry, "mireseason_clock_steps_total",
                                   "times that the machine's clock was set by more than 100 ms");
    Gauge &clock_synchronised = gauge(*registry, "mireseason_clock_synchronised",
                                      "1 if the kernel says that its clock is synchronised");
    Gauge &clock_error = gauge(*registry, "mireseason_clock_greatest_error_seconds",
                               "how wrong the kernel says that its clock may be");
    Gauge &speaking = gauge(*registry, "mireseason_speaks", "logs that this gateway writes");
    Gauge &faulty = gauge(*registry, "mireseason_next_configuration_faulty",
                          "1 if the next day can't open with the files as they are");
    Gauge &ready = gauge(*registry, "mireseason_ready", "1 while firms may log on");
    Gauge &healthy = gauge(*registry, "mireseason_healthy",
                           "1 while every part that does the work shows that it does");
    Gauge &opens = gauge(*registry, "mireseason_day_opens_timestamp_seconds",
                         "when the trading day opens, or the next one if none goes on");
    Gauge &ends = gauge(*registry, "mireseason_day_ends_timestamp_seconds",
                        "when the trading day ends, or the next one if none goes on");
    Gauge &uncopied = gauge(*registry, "mireseason_days_without_copy",
                            "days that have ended and are not at the place of copies");
    Family<Gauge> &certificates =
        gauges(*registry, "mireseason_certificate_expiry_timestamp_seconds",
               "when a certificate ends that the gateway shows or asks for");
    Family<Gauge> &lists = gauges(*registry, "mireseason_revoked_expiry_timestamp_seconds",
                                  "when the list of revoked certificates ends");
    Family<Gauge> &unanswered = gauges(*registry, "mireseason_venue_backlog_entries",
                                       "entries of the log that the venue has not answered");
    Family<Gauge> &waiting = gauges(*registry, "mireseason_log_backlog_messages",
                                    "messages of firms that wait for room in the log");
    Family<Gauge> &disk_free = gauges(*registry, "mireseason_log_disk_free_bytes",
                                      "bytes that are free on the disk of the log");
    Family<Gauge> &disk_held = gauges(*registry, "mireseason_log_disk_reserve_bytes",
                                      "bytes that are held back on the disk of the log");
    Family<Gauge> &disk_reserve = gauges(*registry, "mireseason_log_disk_reserve_reached",
                                         "1 if less is free on the disk of the log than is held "
                                         "back: no request and no quote is taken");
    Family<Gauge> &clock_doubtful =
        gauges(*registry, "mireseason_clock_doubtful",
               "1 while no request and no quote is taken, since the clock was set");
    Family<Gauge> &halted =
        gauges(*registry, "mireseason_halted", "1 while an operator has halted the venue");
    Family<Gauge> &halted_bonds =
        gauges(*registry, "mireseason_halted_bonds", "bonds that an operator has halted");
    Family<Gauge> &build =
        gauges(*registry, "mireseason_build_info", "1; the version and commit of the gateway");
    Family<Gauge> &program =
        gauges(*registry, "mireseason_venue_info", "1; what the venue's program says that it is");
    FirmFamilies firm_families{*registry};
    mutable std::mutex firms_mutex;
    std::map<std::pair<std::string, std::string>, FirmMetrics> firms;
    Histogram &handed_over = seconds(*registry, "mireseason_handed_over_seconds",
                                     "a message's time from the venue to its firm's session");
    Histogram &commit = seconds(*registry, "mireseason_commit_seconds", "a transaction of the log");
    Histogram &seal = seconds(*registry, "mireseason_seal_seconds",
                              "the sealing of a transaction of the log, before its commit");
    Histogram &logged =
        seconds(*registry, "mireseason_logged_seconds", "a message's receipt to its commit");
    Histogram &answered =
        seconds(*registry, "mireseason_answered_seconds", "a message's receipt to its answer");
};

Metrics::Metrics() : parts_(std::make_unique<Parts>()) {
    parts_->build.Add({{"version", version_text()}}).Set(1);
}

FirmMetrics &Metrics::firm(const std::string &venue, const std::string &firm) {
    const std::lock_guard lock(parts_->firms_mutex);
    parts_->wrong_passwords.Add({{"firm", firm}}); // a rule of what rises needs a first value
    return parts_->firms.try_emplace({venue, firm}, parts_->firm_families, venue, firm)
        .first->second;
}

std::vector<const FirmMetrics *> Metrics::firms() const {
    const std::lock_guard lock(parts_->firms_mutex);
    std::vector<const FirmMetrics *> all;
    for (const auto &[name, firm] : parts_->firms) {
        all.push_back(&firm);
    }
    return all;
}

void Metrics::backlog(const std::string &venue, std::size_t unanswered, std::size_t waiting) {
    parts_->unanswered.Add(of_venue(venue)).Set(static_cast<double>(unanswered));
    parts_->waiting.Add(of_venue(venue)).Set(static_cast<double>(waiting));
}

void Metrics::log_disk(const std::string &venue, std::uint64_t free, std::uint64_t reserve,
                       bool is_reserve_reached) {
    parts_->disk_held.Add(of_venue(venue)).Set(static_cast<double>(reserve));
    parts_->disk_free.Add(of_venue(venue)).Set(static_cast<double>(free));
    parts_->disk_reserve.Add(of_venue(venue)).Set(is_reserve_reached ? 1 : 0);
}

void Metrics::halted(const std::string &venue, bool is_whole, std::size_t bonds) {
    parts_->halted.Add(of_venue(venue)).Set(is_whole ? 1 : 0);
    parts_->halted_bonds.Add(of_venue(venue)).Set(static_cast<double>(bonds));
}

void Metrics::clock_is_doubtful(const std::string &venue, bool is_doubtful) {
    parts_->clock_doubtful.Add(of_venue(venue)).Set(is_doubtful ? 1 : 0);
}

std::vector<QueueSize> Metrics::queues() const {
    std::vector<QueueSize> all;
    const auto add = [&all](Family<Gauge> &family, const char *what) {
        for (const prometheus::MetricFamily &each : family.Collect()) {
            for (const prometheus::ClientMetric &metric : each.metric) {
                const std::string venue =
                    metric.label.empty() ? "" : " of " + metric.label.front().value;
                all.push_back({what + venue, metric.gauge.value});
            }
        }
    };
    add(parts_->unanswered, "entries that the venue has not answered");
    add(parts_->waiting, "messages that wait for the log");
    return all;
}

void Metrics::venue_is(const std::string &venue, const std::string &version) {
    auto labels = of_venue(venue);
    labels["version"] = version;
    parts_->program.Add(labels).Set(1);
}

void Metrics::is_now(bool ready, bool healthy) {
    parts_->ready.Set(ready ? 1 : 0);
    parts_->healthy.Set(healthy ? 1 : 0);
}

void Metrics::day_is(std::chrono::sys_seconds opens, std::chrono::sys_seconds ends) {
    parts_->opens.Set(in_seconds(opens));
    parts_->ends.Set(in_seconds(ends));
}

void Metrics::days_without_copy(std::size_t days) {
    parts_->uncopied.Set(static_cast<double>(days));
}

void Metrics::certificate_ends(const std::string &file, std::chrono::sys_seconds moment) {
    parts_->certificates.Add({{"file", file}}).Set(in_seconds(moment));
}

void Metrics::list_ends(const std::string &file, std::chrono::sys_seconds moment) {
    parts_->lists.Add({{"file", file}}).Set(in_seconds(moment));
}

void Metrics::handed_over(Duration since_given) {
    parts_->handed_over.Observe(in_seconds(since_given));
}

Metrics::~Metrics() = default;

std::string Metrics::text() const {
    return prometheus::TextSerializer().Serialize(parts_->registry->Collect());
}

void Metrics::committed(std::size_t entries, std::size_t messages, Duration took) {
    parts_->commits.Increment();
    parts_->entries.Increment(static_cast<double>(entries));
    parts_->sent.Increment(static_cast<double>(messages));
    parts_->commit.Observe(in_seconds(took));
}

void Metrics::copied(std::size_t messages) {
    parts_->sent.Increment(static_cast<double>(messages));
}

void Metrics::sealed(Duration took) {
    parts_->seal.Observe(in_seconds(took));
}

void Metrics::logged(Duration since_receipt) {
    parts_->logged.Observe(in_seconds(since_receipt));
}

void Metrics::answered(Duration since_receipt) {
    parts_->answered.Observe(in_seconds(since_receipt));
}

void Metrics::delivered() {
    parts_->delivered.Increment();
}

void Metrics::connected() {
    parts_->connections.Increment();
    parts_->open.Increment();
}

void Metrics::disconnected() {
    parts_->open.Decrement();
}

void Metrics::logged_on() {
    parts_->logons.Increment();
    parts_->sessions.Increment();
}

void Metrics::logged_off() {
    parts_->sessions.Decrement();
}

void Metrics::speaks() {
    parts_->speaking.Increment();
}

void Metrics::speaks_no_more() {
    parts_->speaking.Decrement();
}

void Metrics::next_configuration_is_right(bool is_right) {
    parts_->faulty.Set(is_right ? 0 : 1);
}

void Metrics::refused(const std::string &reason) {
    parts_->refused.Add({{"reason", reason}}).Increment();
}

void Metrics::dropped(const std::string &reason) {
    parts_->dropped.Add({{"reason", reason}}).Increment();
}

void Metrics::clock_set() {
    parts_->clock_steps.Increment();
}

void Metrics::clock_is(bool synchronised, std::chrono::microseconds greatest_error) {
    parts_->clock_synchronised.Set(synchronised ? 1 : 0);
    parts_->clock_error.Set(std::chrono::duration<double>(greatest_error).count());
}

void Metrics::wrong_password(const std::string &firm) {
    parts_->wrong_passwords.Add({{"firm", firm}}).Increment();
}

void Metrics::venue_started() {
    parts_->starts.Increment();
}

} // namespace gateway
