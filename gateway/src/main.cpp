// The program mireseason-gateway: reads its arguments, and runs the service or what they ask for.
#include "base/event_form.h"
#include "base/patient_stderr.h"
#include "base/private_file.h"
#include "common/moment.h"
#include "common/password.h"
#include "common/version.h"
#include "config/start_configuration.h"
#include "config/venue_rules.h"
#include "log/make_keys.h"
#include "operator/admin_peer.h"
#include "recovery/accept_loss.h"
#include "service/restart_forecast.h"
#include "service/service.h"
#include "service/start_check.h"
#include "session/check_settings.h"
#include "venue/confinement.h"

#include <algorithm>
#include <chrono>
#include <csignal>
#include <iostream>
#include <memory>
#include <optional>
#include <thread>

#include <spdlog/spdlog.h>
#include <unistd.h>

namespace {

constexpr const char *usage = R"(usage: mireseason-gateway CONFIG
       mireseason-gateway --check CONFIG [--date YYYYMMDD]
                                           says what a start on that day would find
       mireseason-gateway --hash           reads a password from a line, and prints its salted hash
       mireseason-gateway --make-keys DIR [NAME ..]
                                           makes the secret of a log, and for each gateway its keys
       mireseason-gateway --accept-loss CONFIG
                                           accepts a log whose end was lost
       mireseason-gateway --confined COMMAND ..
                                           runs a command without a network, with its own files alone
       mireseason-gateway --version
)";

// Of the events, for the page.
constexpr std::size_t kept_events = 40;

int print_hash() {
    std::string password;
    if (!std::getline(std::cin, password) || password.empty()) {
        std::cerr << "mireseason-gateway: no password on standard input\n";
        return 2;
    }
    std::cout << gateway::new_hash(password) << '\n';
    return 0;
}

std::shared_ptr<spdlog::logger> make_events(const std::string &level,
                                            std::shared_ptr<gateway::RecentEvents> recent = {}) {
    std::vector<spdlog::sink_ptr> sinks = {std::make_shared<gateway::PatientStderr>()};
    if (recent) {
        sinks.push_back(std::move(recent));
    }
    auto events = std::make_shared<spdlog::logger>("gateway", sinks.begin(), sinks.end());
    events->set_level(spdlog::level::from_str(level));
    events->set_formatter(gateway::event_form());
    events->flush_on(spdlog::level::debug);
    return events;
}

// SIGTERM and SIGINT, which all threads block, ask the gateway to stop, and SIGHUP to read
// credentials and certificates again.
class Signals {
  public:
    Signals() {
        sigemptyset(&set_);
        sigaddset(&set_, SIGTERM);
        sigaddset(&set_, SIGINT);
        sigaddset(&set_, SIGHUP);
        pthread_sigmask(SIG_BLOCK, &set_, nullptr);
        std::signal(SIGPIPE, SIG_IGN);
    }

    // The thread is not to outlive the service.
    std::jthread watch(gateway::Service &service) const {
        return std::jthread([this, &service](const std::stop_token &stop) {
            const timespec look{0, 200'000'000};
            while (!stop.stop_requested()) {
                const int signal = sigtimedwait(&set_, nullptr, &look);
                if (signal == SIGHUP) {
                    service.ask_to_renew();
                } else if (signal > 0) {
                    service.ask_to_stop("the operator has stopped the gateway");
                }
            }
        });
    }

  private:
    sigset_t set_{};
};

// Says what a start now would do.
gateway::RestartForecast tell_restart(const std::string &path) {
    gateway::RestartForecast forecast = gateway::forecast_restart(
        path, std::chrono::floor<std::chrono::seconds>(std::chrono::system_clock::now()));
    for (const std::string &sentence : forecast.sentences) {
        std::cout << sentence << std::endl;
    }
    return forecast;
}

// Tells what the files are. Throws std::runtime_error with the first fault.
void check_files(const std::string &path, const std::string &day, std::optional<int> running,
                 const gateway::RestartForecast &forecast) {
    gateway::ConfigFiles files;
    const std::vector<gateway::Config> configs = forecast.has_begun
                                                     ? gateway::read_next_configs(files, path, day)
                                                     : gateway::read_configs(files, path, day);
    for (const gateway::Config &config : configs) {
        const bool is_next = forecast.has_begun && !config.firms.has_own_date;
        gateway::check_start(config, is_next ? config.firms.date : day, running);
        std::cout << path << " is a configuration of " << config.firms.names.size() << " firms for "
                  << (forecast.files_are_others ? "the day after " : "") << day << '\n';
        for (const std::string &told : gateway::kept_out(config, day)) {
            if (std::ranges::find(forecast.sentences, told) == forecast.sentences.end()) {
                std::cout << told << '\n';
            }
        }
    }
    for (const std::string &doubt : gateway::doubts_about(configs.front())) {
        std::cerr << "mireseason-gateway: in doubt: " << doubt << '\n';
    }
}

// Nothing is written, and no port is listened at.
int check(const std::string &path, const std::string &day) {
    // A program of the venue that does not take what it is given may have ended already.
    std::signal(SIGPIPE, SIG_IGN);
    if (!gateway::is_date(day)) {
        std::cerr << "mireseason-gateway: --date takes a day as eight digits\n";
        return 2;
    }
    const auto running = gateway::running_gateway(path);
    if (running) {
        std::cout << "a gateway runs with it, process " << *running << ", and has its ports\n";
    }
    const bool is_today = day == gateway::today();
    const auto forecast = is_today ? tell_restart(path) : gateway::RestartForecast();
    try {
        check_files(path, day, running, forecast);
        return forecast.goes_well ? 0 : 1;
    } catch (const std::exception &fault) {
        std::cerr << "mireseason-gateway: " << fault.what() << '\n';
        // Before the day has begun a start reads these files, and ends at the fault.
        if (forecast.has_begun && forecast.goes_well) {
            std::cerr
                << "mireseason-gateway: so the status is 1, although a restart now goes well: "
                   "mend it before the next day\n";
        }
        return 1;
    }
}

int serve(const std::string &path) {
    gateway::ConfigFiles files;
    std::vector<gateway::Config> configs =
        gateway::read_configs_of_start(files, path, gateway::today());
    // Here, and not when the sessions begin: one that follows would find out only once it is to
    // take over.
    gateway::check_settings(configs.front().engine);
    gateway::check_user(configs.front());
    gateway::make_files_private();
    gateway::SystemdSocket systemd;
    const auto recent = std::make_shared<gateway::RecentEvents>(kept_events);
    const auto events = make_events(configs.front().event_level, recent);
    const Signals signals;
    gateway::Service service(path, std::move(files), std::move(configs), events, recent,
                             std::move(systemd));
    const std::jthread watching = signals.watch(service);
    return service.run();
}

void make_keys(const std::vector<std::string> &words) {
    for (const std::string &file : gateway::make_keys(words[1], {words.begin() + 2, words.end()})) {
        std::cout << file << '\n';
    }
}

void accept_loss(const std::string &path) {
    // A log that is gone is begun: the venue's program tries the configuration, as in check().
    std::signal(SIGPIPE, SIG_IGN);
    gateway::make_files_private();
    gateway::ConfigFiles files;
    const std::vector<gateway::Config> configs =
        gateway::read_configs(files, path, gateway::today());
    gateway::check_user(configs.front());
    const auto events = make_events(configs.front().event_level);
    for (const gateway::Config &config : configs) {
        const gateway::Act act{gateway::who_is(::getuid()), "log accept-loss", ""};
        std::cout << gateway::accept_loss(config, {act}, events) << '\n';
    }
}

} // namespace

int main(int count, char **words) {
    const std::vector<std::string> arguments(words + 1, words + count);
    try {
        if (arguments == std::vector<std::string>{"--version"}) {
            std::cout << gateway::version_text() << '\n';
            return 0;
        }
        if (arguments == std::vector<std::string>{"--hash"}) {
            return print_hash();
        }
        if (arguments.size() >= 2 && arguments[0] == "--confined") {
            gateway::become_confined({arguments.begin() + 1, arguments.end()});
        }
        if (arguments.size() >= 2 && arguments[0] == "--make-keys") {
            make_keys(arguments);
            return 0;
        }
        if (arguments.size() == 2 && arguments[0] == "--accept-loss") {
            accept_loss(arguments[1]);
            return 0;
        }
        if (arguments.size() == 2 && arguments[0] == "--check") {
            return check(arguments[1], gateway::today());
        }
        if (arguments.size() == 4 && arguments[0] == "--check" && arguments[2] == "--date") {
            return check(arguments[1], arguments[3]);
        }
        if (arguments.size() == 1 && !arguments[0].starts_with('-')) {
            return serve(arguments[0]);
        }
    } catch (const std::exception &fault) {
        std::cerr << "mireseason-gateway: " << fault.what() << '\n';
        return 1;
    }
    std::cerr << usage;
    return 2;
}
