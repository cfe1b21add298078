#include "service/service.h"

#include "common/version.h"
#include "config/cancel_traders.h"
#include "config/log_location.h"
#include "config/venue_file.h"
#include "operator/admin_stream.h"
#include "recovery/accept_loss.h"
#include "recovery/late_end.h"
#include "service/day_copies.h"
#include "service/day_hours.h"
#include "service/ended_day.h"
#include "service/patient_look.h"
#include "service/restart_forecast.h"
#include "service/start_check.h"

#include <algorithm>
#include <cstdlib>
#include <utility>

#include <fmt/chrono.h>
#include <fmt/format.h>

namespace gateway {

namespace {

using namespace std::chrono_literals;

// The next day's configuration is tried so long before the day opens, whether it changed or not.
constexpr auto last_trial = 1h;

// A piece of a copy takes less, where its disk answers.
constexpr auto longest_end = 10s;

SystemSeconds now() {
    return std::chrono::floor<std::chrono::seconds>(std::chrono::system_clock::now());
}

std::string text_of(SystemSeconds moment) {
    return fmt::format("{:%Y-%m-%dT%H:%M:%SZ}", fmt::gmtime(moment.time_since_epoch().count()));
}

// From midnight to midnight in UTC.
TradingDay whole_day_of(const std::string &date) {
    const SystemSeconds day = midnight_of(date);
    return {date, day, day + std::chrono::days(1), day + std::chrono::days(1)};
}

} // namespace

Service::Service(std::filesystem::path path, ConfigFiles files, std::vector<Config> configs,
                 std::shared_ptr<spdlog::logger> events, std::shared_ptr<RecentEvents> recent,
                 SystemdSocket systemd)
    : path_(std::move(path)), first_(std::move(configs)), events_(std::move(events)),
      recent_(std::move(recent)),
      next_(path_, std::move(files), first_.front().days, metrics_, events_),
      copying_([this](const std::string &before, const std::stop_token &stop) {
          make_copies(before, stop);
      }),
      monitor_(first_.front().metrics_port, sources()),
      notifier_(std::move(systemd), [this] { return condition(); }) {
    for (const std::string &doubt : doubts_about(first_.front())) {
        events_->warn("configuration in doubt: {}", doubt);
    }
    open_operator_socket();
}

MonitorSources Service::sources() {
    MonitorSources sources;
    sources.condition = [this] { return condition(); };
    sources.metrics = [this] {
        const Condition now = condition();
        metrics_.is_now(now.phase == Phase::ready, !now.fault());
        return metrics_.text();
    };
    sources.page = [this] { return html_of(overview()); };
    return sources;
}

Condition Service::condition() {
    const std::lock_guard lock(mutex_);
    Condition now;
    now.day = day_;
    now.phase = between_;
    if (gateway_ != nullptr) {
        now.phase = gateway_->phase();
        now.silent = gateway_->silent();
        now.not_taken = gateway_->halts();
    }
    return now;
}

Overview Service::overview() {
    Overview seen;
    seen.condition = condition();
    seen.version = version_text();
    seen.events = recent_->last_formatted();
    seen.queues = metrics_.queues();
    for (const FirmMetrics *firm : metrics_.firms()) {
        seen.firms.push_back(firm->counts());
    }
    const std::lock_guard lock(mutex_);
    if (gateway_ != nullptr) {
        seen.condition.not_taken = gateway_->not_taken();
        seen.requests = gateway_->open_requests();
    }
    return seen;
}

void Service::is_now(Phase phase) {
    const std::lock_guard lock(mutex_);
    between_ = phase;
}

void Service::show(const TradingDay &day) {
    metrics_.day_is(day.opens, day.ends);
    const std::lock_guard lock(mutex_);
    day_ = fmt::format("{}, {} to {}", day.date, text_of(day.opens), text_of(day.ends));
}

void Service::ask_to_stop(const std::string &why) {
    const std::lock_guard lock(mutex_);
    if (stopping_.request_stop()) {
        why_ = why;
    }
    if (gateway_ != nullptr) {
        gateway_->ask_to_stop(why);
    }
    changed_.notify_all();
}

std::string Service::why() {
    const std::lock_guard lock(mutex_);
    return why_;
}

void Service::ask_to_renew() {
    is_to_renew_ = true;
    const std::lock_guard lock(mutex_);
    if (gateway_ != nullptr) {
        gateway_->ask_to_renew();
    }
}

int Service::run() {
    if (!first_.front().firms.has_own_date) {
        const int status = run_days();
        end_copying(status);
        return status;
    }
    show(whole_day_of(first_.front().firms.date));
    return run_day(first_, std::nullopt);
}

int Service::run_days() {
    const std::jthread watching([this](const std::stop_token &stop) { watch_files(stop); });
    TradingDay day = day_of_start();
    while (!stopping_.stop_requested()) {
        show(day);
        copy_days(day.date);
        if (!wait_for(day)) {
            break;
        }
        next_.look(day);
        const std::vector<Config> configs = as_begun(next_.in_force(day.date));
        keep_hours_of(configs.front(), day);
        if (const int status = run_day(configs, day); status != 0) {
            return status;
        }
        day = day_after(std::max(now(), day.ends)); // an operator may have ended it early
    }
    events_->info("stop cause=\"{}\"", why());
    return 0;
}

// A log that is not right is for an operator to look at, and keeps no other day from opening.
void Service::sign_late_ends(const std::string &before) {
    for (const Config &config : next_.in_force(before)) {
        try {
            sign_late_end(config, before, events_);
        } catch (const std::exception &fault) {
            events_->error("the end of a day is not signed cause=\"{}\"", fault.what());
        }
    }
}

// Beside the day that opens next, which does not wait for it.
void Service::copy_days(const std::string &before) {
    if (!copying_.ask(before)) {
        events_->error(
            "days are not copied cause=\"what was to be copied before has not ended: its "
            "disk may not answer\"");
    }
}

// A thread that waits for such a disk can't be joined. All else of the process has ended: the log
// is closed, and what is told is told at once.
void Service::end_copying(int status) {
    if (!copying_.ends_within(longest_end)) {
        events_->error("the gateway ends while a day is copied cause=\"its disk does not answer\"");
        std::_Exit(status);
    }
}

void Service::make_copies(const std::string &before, const std::stop_token &stop) {
    sign_late_ends(before);
    try {
        std::size_t missing = 0;
        for (const Config &config : next_.in_force(before)) {
            missing += config.copies.empty() ? 0 : DayCopies(config, events_).make(before, stop);
        }
        metrics_.days_without_copy(missing);
        days_without_copy_ = missing;
    } catch (const std::exception &fault) {
        events_->error("days are not copied cause=\"{}\"", fault.what());
    }
}

// A day goes on with the configuration that it began with: what the files say by now is for the
// next one.
std::vector<Config> Service::as_begun(std::vector<Config> configs) {
    for (Config &config : configs) {
        const auto begun = begun_configuration(config);
        if (!begun || *begun == config.configuration) {
            continue;
        }
        VenueFile file = read_venue_file("entry 0", *begun, config.firms.date);
        if (file.date != config.firms.date) {
            continue; // another day's log is in the place of this one's: its opening says so
        }
        events_->info("the day goes on with the configuration that it began with{}: that of the "
                      "files applies to the next day",
                      config.venue.empty() ? "" : " venue=" + config.venue);
        config.configuration = std::move(file.text);
        config.firms = {std::move(file.date), std::move(file.firms), false};
        for (const std::string &told : take_cancel_traders_of_day(config)) {
            events_->warn("{}", told);
        }
    }
    return configs;
}

// Other threads see the gateway from here to its end, however that comes.
Service::Shown::Shown(Service &service, Gateway &gateway) : service_(service) {
    const std::lock_guard lock(service_.mutex_);
    service_.gateway_ = &gateway;
    if (service_.stopping_.stop_requested()) {
        gateway.ask_to_stop(service_.why_);
    }
}

// It waits for the operator's commands that are at work.
Service::Shown::~Shown() {
    const std::unique_lock no_command(service_.day_mutex_);
    const std::lock_guard lock(service_.mutex_);
    service_.gateway_ = nullptr;
}

// With an operator's socket a log that is not accepted waits for the operator.
int Service::run_day(const std::vector<Config> &configs, const std::optional<TradingDay> &hours) {
    for (;;) {
        const int status = run_gateway(configs, hours);
        if (status != log_not_accepted || !socket_) {
            return status;
        }
        if (!wait_for_acceptance(configs, hours)) {
            return 0;
        }
    }
}

int Service::run_gateway(const std::vector<Config> &configs,
                         const std::optional<TradingDay> &hours) {
    Gateway gateway(path_, configs, hours, metrics_, events_);
    const Shown shown(*this, gateway);
    gateway.start(std::move(port_));
    gateway.run();
    const std::lock_guard lock(mutex_);
    not_accepted_ = gateway.not_accepted();
    waits_for_ = not_accepted_.empty() ? "the day has ended"
                                       : fmt::format("log accept-loss: {}", gateway.failure());
    return gateway.exit_status();
}

TradingDay Service::day_after(SystemSeconds now) {
    return TradingDays(next_.days_in_force(), now).first_after(now);
}

// A day that is open is not closed by hours that were changed since it began: that takes an
// operator's word. One that was ended by such a word is over, though it opens later by now.
TradingDay Service::day_of_start() {
    const SystemSeconds moment = now();
    const TradingDay by_rules = day_after(moment);
    const auto begun = day_that_goes_on(first_, by_rules, moment);
    if (!begun && is_ended_by_order(first_, by_rules.date)) {
        events_->info("an operator has ended this day: it is not opened again date={}",
                      by_rules.date);
        return day_after(by_rules.ends);
    }
    if (!begun) {
        return by_rules;
    }
    events_->warn("the day goes on by the hours that it began with: by [day] as it is now it would "
                  "be closed date={} ends={}; `mireseason-admin end-day` ends it",
                  begun->date, text_of(begun->ends));
    const std::lock_guard lock(mutex_);
    goes_on_to_ = begun->ends;
    return *begun;
}

// For a start within the day.
void Service::keep_hours_of(const Config &config, const TradingDay &day) {
    try {
        keep_hours(config, day);
    } catch (const std::exception &fault) {
        events_->warn("the hours of the day are not kept cause=\"{}\"", fault.what());
    }
}

// Whether it has come; false where the service is to stop.
bool Service::wait_for(const TradingDay &day) {
    if (now() < day.opens) {
        events_->info("closed until={} date={}", text_of(day.opens), day.date);
        is_now(Phase::closed);
        const std::lock_guard lock(mutex_);
        waits_for_ =
            fmt::format("the trading day {}, which opens at {}", day.date, text_of(day.opens));
    }
    bool is_stopped = false;
    while (now() < day.opens && !is_stopped) {
        refuse_logons(day);
        is_stopped = wait_a_second();
    }
    port_ = closed_door();
    is_now(Phase::opens);
    return !stopping_.stop_requested();
}

bool Service::wait_a_second() {
    std::unique_lock lock(mutex_);
    return changed_.wait_for(lock, 1s, [&] { return stopping_.stop_requested(); });
}

// For the operator.

void Service::open_operator_socket() {
    const Config &config = first_.front();
    if (!config.operator_socket.empty()) {
        socket_ = std::make_unique<AdminSocket>(
            config.operator_socket, config.operator_group,
            [this](const std::string &who, const std::string &line) {
                return answer_to(*this, who, line);
            },
            events_,
            [this](uid_t user, const std::string &line, const PutBytes &put) {
                return stream_backup(*this, user, line, put);
            });
    }
}

// Whether each log was accepted; false where the day is over, or the service is to stop.
bool Service::wait_for_acceptance(const std::vector<Config> &configs,
                                  const std::optional<TradingDay> &hours) {
    events_->error("waits for the operator: mireseason-admin log accept-loss, or put the log back "
                   "and restart");
    is_now(Phase::closed);
    std::unique_lock lock(mutex_);
    waiting_configs_ = configs;
    while (!not_accepted_.empty() && !stopping_.stop_requested() &&
           !(hours && now() >= hours->ends)) {
        changed_.wait_for(lock, 1s);
    }
    waiting_configs_.clear();
    const bool is_accepted = not_accepted_.empty();
    not_accepted_.clear();
    between_ = Phase::opens;
    return is_accepted && !stopping_.stop_requested();
}

AdminScene::HeldDay Service::hold_day() {
    HeldDay held{std::shared_lock(day_mutex_), nullptr};
    const std::lock_guard lock(mutex_);
    held.gateway = gateway_;
    return held;
}

std::string Service::waits_for() {
    const std::lock_guard lock(mutex_);
    return waits_for_;
}

std::string Service::accept_loss(const std::vector<Act> &acts) {
    const std::lock_guard one_at_a_time(acceptance_mutex_);
    std::vector<std::size_t> venues;
    std::vector<Config> configs;
    {
        const std::lock_guard lock(mutex_);
        if (waiting_configs_.empty() || not_accepted_.empty()) {
            throw AdminFault("no log waits to be accepted");
        }
        venues = not_accepted_;
        configs = waiting_configs_;
    }
    std::string said;
    for (const std::size_t at : venues) {
        said += (said.empty() ? "" : "; ") + gateway::accept_loss(configs[at], acts, events_);
    }
    const std::lock_guard lock(mutex_);
    not_accepted_.clear();
    waits_for_ = "the gateway begins";
    changed_.notify_all();
    return said;
}

// The first that has not opened yet.
TradingDay Service::day_to_open() {
    SystemSeconds moment = now();
    {
        const std::lock_guard lock(mutex_);
        moment = std::max(moment, goes_on_to_);
    }
    const TradingDay today = day_after(moment);
    return today.opens <= now() ? day_after(today.ends) : today;
}

AdminScene::NextDay Service::next_day() {
    if (first_.front().firms.has_own_date) {
        throw AdminFault(
            fmt::format("there is no next day: the venue's configuration is of {} alone",
                        first_.front().firms.date));
    }
    const TradingDay day = day_to_open();
    next_.look(day);
    return {day.date, text_of(day.opens), text_of(day.ends), next_.in_force(day.date),
            next_.faults()};
}

AdminScene::Beside Service::beside() {
    Beside seen;
    seen.days_without_copy = days_without_copy_;
    for (const Config &config : first_) {
        const auto without = found_soon<std::uint64_t>(
            "copies " + config.copies.string(), [config] { return copies_without_seal(config); });
        seen.days_without_seal = without && seen.days_without_seal
                                     ? std::optional(*seen.days_without_seal + *without)
                                     : std::nullopt;
    }
    RestartForecast forecast = forecast_restart(path_, now(), Viewer::running_gateway);
    seen.restart = std::move(forecast.sentences);
    seen.restart_goes_well = forecast.goes_well;
    return seen;
}

void Service::look_at_files(std::string &tried) {
    const TradingDay next = day_to_open();
    next_.look(next);
    if (now() + last_trial >= next.opens && tried != next.date) {
        tried = next.date;
        next_.try_for(next);
    }
}

// Whatever is wrong with the files of another day, the one that goes on does not end by it.
void Service::watch_files(const std::stop_token &stop) {
    std::string tried; // the day for which they were tried last, whether they had changed or not
    std::string told;
    while (!stop.stop_requested() && !wait_a_second()) {
        try {
            look_at_files(tried);
            told.clear();
        } catch (const std::exception &fault) {
            if (std::exchange(told, fault.what()) != fault.what()) {
                events_->error("the next day's configuration is not tried cause=\"{}\"",
                               fault.what());
            }
        }
    }
}

} // namespace gateway
