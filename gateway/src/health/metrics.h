// Counters and latencies, in the form that Prometheus reads.
#ifndef GATEWAY_HEALTH_METRICS_H
#define GATEWAY_HEALTH_METRICS_H

#include "health/firm_metrics.h"
#include "health/queue_size.h"

#include <chrono>
#include <cstddef>
#include <cstdint>
#include <memory>
#include <string>
#include <vector>

namespace gateway {

// Any thread may count.
class Metrics {
  public:
    using Duration = std::chrono::steady_clock::duration;

    Metrics();
    ~Metrics();
    Metrics(const Metrics &) = delete;
    Metrics &operator=(const Metrics &) = delete;

    // A transaction of the log, what it had and how long it took.
    void committed(std::size_t entries, std::size_t messages, Duration took);
    // A transaction of messages that were sent alone, for readers.
    void copied(std::size_t messages);
    // The sealing of one: its hashes and its seal.
    void sealed(Duration took);
    // An entry, from the receipt of its message to its commit, and to the venue's mark after it.
    void logged(Duration since_receipt);
    void answered(Duration since_receipt);
    // A message of the venue that was handed to a firm's session.
    void delivered();
    // The same, once it left for the firm: so long after the venue gave it.
    void handed_over(Duration since_given);
    // A connection that was taken, and one that ended.
    void connected();
    void disconnected();
    void logged_on();
    void logged_off();
    // A Logon or a connection that was refused; a message that did not reach the log.
    void refused(const std::string &reason);
    void dropped(const std::string &reason);
    void wrong_password(const std::string &firm);
    void venue_started();
    // The machine's clock was set; what the kernel says of it now.
    void clock_set();
    void clock_is(bool synchronised, std::chrono::microseconds greatest_error);
    // This gateway writes a log from now on, and does no more.
    void speaks();
    void speaks_no_more();
    // Whether the files, as they are, are a configuration that the next day can open with.
    void next_configuration_is_right(bool is_right);

    // What one firm's session counts; the same from day to day. `venue` is empty where there is
    // one.
    FirmMetrics &firm(const std::string &venue, const std::string &firm);
    std::vector<const FirmMetrics *> firms() const;
    // Entries of the log that the venue has not answered, and messages that wait for the log.
    void backlog(const std::string &venue, std::size_t unanswered, std::size_t waiting);
    std::vector<QueueSize> queues() const;
    // Bytes that are free on the disk of a venue's log, how many are held back, and whether there
    // are fewer.
    void log_disk(const std::string &venue, std::uint64_t free, std::uint64_t reserve,
                  bool is_reserve_reached);
    // What an operator has halted: the whole venue, and how many bonds.
    void halted(const std::string &venue, bool is_whole, std::size_t bonds);
    // Whether no request and no quote is taken since the clock was set.
    void clock_is_doubtful(const std::string &venue, bool is_doubtful);
    // What the venue's program says that it is.
    void venue_is(const std::string &venue, const std::string &version);
    // Whether firms may log on now, and whether every part that does the work shows that it does.
    void is_now(bool ready, bool healthy);
    // The trading day that goes on, or the next one.
    void day_is(std::chrono::sys_seconds opens, std::chrono::sys_seconds ends);
    // Days that have ended and are not at the place of copies.
    void days_without_copy(std::size_t days);
    // When a certificate ends that the gateway shows or asks for.
    void certificate_ends(const std::string &file, std::chrono::sys_seconds moment);
    // When a list of certificates that were taken back ends.
    void list_ends(const std::string &file, std::chrono::sys_seconds moment);

    // All of them, as Prometheus' text.
    std::string text() const;

  private:
    struct Parts;
    std::unique_ptr<Parts> parts_;
};

} // namespace gateway

#endif
