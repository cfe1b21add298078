#include "service/start_check.h"

#include "common/descriptor.h"
#include "common/frame.h"
#include "config/certified_firms.h"
#include "config/log_location.h"
#include "health/certificate_end.h"
#include "health/disk_reserve.h"
#include "operator/admin_peer.h"
#include "operator/admin_socket.h"
#include "service/own_port.h"
#include "service/patient_look.h"
#include "session/check_settings.h"
#include "venue/venue_trial.h"

#include <algorithm>
#include <cerrno>
#include <chrono>
#include <fstream>
#include <iterator>
#include <stdexcept>
#include <system_error>

#include <arpa/inet.h>
#include <fmt/format.h>
#include <netinet/in.h>
#include <sys/socket.h>
#include <sys/stat.h>
#include <unistd.h>

namespace gateway {

namespace {

namespace fs = std::filesystem;

// Port 0 is any that is free. One that is in use is free for a start where the gateway that runs
// has it, or may have it.
void check_port(const std::string &address, std::uint16_t port, std::string_view key,
                std::optional<int> running) {
    sockaddr_in at{};
    at.sin_family = AF_INET;
    at.sin_port = htons(port);
    if (port == 0 || ::inet_pton(AF_INET, address.c_str(), &at.sin_addr) != 1) {
        return;
    }
    const Descriptor socket(::socket(AF_INET, SOCK_STREAM | SOCK_CLOEXEC, 0));
    const int yes = 1;
    if (socket.number() < 0 ||
        ::setsockopt(socket.number(), SOL_SOCKET, SO_REUSEADDR, &yes, sizeof yes) != 0 ||
        ::bind(socket.number(), reinterpret_cast<const sockaddr *>(&at), sizeof at) != 0) {
        const std::string cause = std::system_category().message(errno);
        if (!running || !listens_at(*running, port).value_or(true)) {
            throw std::runtime_error(fmt::format("{} {}:{}: {}", key, address, port, cause));
        }
    }
}

// The configuration that a process serves, if it is a gateway; empty where it is none, or can't be
// looked at.
fs::path served_by(const fs::path &process) {
    std::ifstream file(process / "cmdline", std::ios::binary);
    std::vector<std::string> words;
    for (std::string word; std::getline(file, word, '\0');) {
        words.push_back(word);
    }
    if (words.size() != 2 || words[1].starts_with('-') ||
        fs::path(words[0]).filename() != "mireseason-gateway") {
        return {};
    }
    std::error_code fault;
    const fs::path path = fs::canonical(process / "cwd", fault) / words[1];
    return fs::canonical(fault ? fs::path(words[1]) : path, fault);
}

// A disk that is smaller than what is held back of it would take no request for good.
void check_reserve(const Config &config) {
    const auto room = config.disk.empty() ? std::nullopt : room_of(config.disk);
    if (room && room->bytes <= config.reserve) {
        throw std::runtime_error(fmt::format(
            "[log] reserve = {}: the disk of {} has {} bytes in all, and more than the reserve "
            "is needed",
            config.reserve, config.disk.string(), room->bytes));
    }
}

// A word without a slash is looked up in PATH.
void check_program(const Config &config) {
    const fs::path program = config.command.front();
    std::error_code fault;
    if (program.has_parent_path() && !fs::exists(program, fault)) {
        throw std::runtime_error(fmt::format("[venue{}] command: there is no program {}",
                                             config.venue.empty() ? "" : "." + config.venue,
                                             program.string()));
    }
}

// This process has to find it, and to write there where it `writes`.
void check_folder(const fs::path &folder, std::string_view key, bool writes) {
    std::error_code fault;
    if (!fs::is_directory(folder, fault)) {
        throw std::runtime_error(fmt::format("{}: there is no folder {}{}", key, folder.string(),
                                             fault && fault != std::errc::no_such_file_or_directory
                                                 ? fmt::format(" ({})", fault.message())
                                                 : ""));
    }
    if (::access(folder.c_str(), writes ? W_OK | X_OK : R_OK | X_OK) != 0) {
        throw std::system_error(errno, std::system_category(),
                                fmt::format("{} {}", key, folder.string()));
    }
}

// A folder that is named after the day is made when the day begins.
void check_folders(const Config &config) {
    const bool is_file = !config.sqlite.empty();
    if (is_file) {
        const fs::path folder = config.sqlite.parent_path();
        const fs::path above = above_folder_of_day(config);
        std::error_code fault;
        const bool is_to_make = !above.empty() && !fs::exists(folder, fault);
        check_folder(is_to_make ? above : folder, "[log] sqlite", true);
    }
    const bool is_logs_own = is_file && config.spool == config.disk;
    if (config.spool != config.checkpoints && !is_logs_own) {
        check_folder(config.spool, "[log] spool", true);
    }
}

// Another machine may lend it.
void check_lent_folder(const fs::path &folder, const std::string &key, bool writes) {
    const auto looked = found_soon<bool>(key + " " + folder.string(), [folder, key, writes] {
        check_folder(folder, key, writes);
        return true;
    });
    if (!looked) {
        throw std::runtime_error(
            fmt::format("{} {}: its disk does not answer", key, folder.string()));
    }
}

void check_copies(const Config &config) {
    if (!config.copies.empty()) {
        check_lent_folder(config.copies, "[copies] folder", true);
    }
    if (!config.sealed.empty()) {
        check_lent_folder(config.sealed, "[copies] sealed", false);
    }
}

// The file whose hash begins a day.
void check_logged_program(const Config &config) {
    std::error_code fault;
    if (config.program.has_parent_path() && !fs::exists(config.program, fault)) {
        throw std::runtime_error(fmt::format("[venue{}] program: there is no file {}",
                                             config.venue.empty() ? "" : "." + config.venue,
                                             config.program.string()));
    }
}

// Which the gateway makes where it is not there yet.
void check_folder_to_make(const fs::path &folder, std::string_view key) {
    fs::path there = folder;
    std::error_code fault;
    while (!fs::exists(fs::symlink_status(there, fault)) && there.has_relative_path()) {
        there = there.parent_path();
    }
    check_folder(there, key, true);
}

// A folder of it in /run is made by systemd when the service starts.
void check_socket(const Config &config) {
    const fs::path &path = config.operator_socket;
    if (path.empty()) {
        return;
    }
    if (path.string().size() > longest_socket_path) {
        throw std::runtime_error(fmt::format("[operator] socket: {} has more than {} bytes",
                                             path.string(), longest_socket_path));
    }
    std::error_code fault;
    const fs::file_status found = fs::symlink_status(path, fault);
    if (fs::exists(found) && !fs::is_socket(found)) {
        throw std::runtime_error(fmt::format(
            "[operator] socket: something stands at {} that is no socket", path.string()));
    }
    const fs::path folder = path.parent_path();
    if (!folder.string().starts_with("/run/") || fs::exists(folder, fault)) {
        check_folder(folder, "[operator] socket", true);
    }
}

// Each would be free without the other.
void check_ports(const Config &config) {
    const bool share = config.engine.address == "127.0.0.1" || config.engine.address == "0.0.0.0";
    if (share && config.metrics_port != 0 && config.metrics_port == config.engine.port) {
        throw std::runtime_error(
            fmt::format("[metrics] port = {}: [fix] port is the same", config.metrics_port));
    }
}

} // namespace

void check_day(const Config &config, std::string_view day) {
    if (config.firms.date != day) {
        throw std::runtime_error(fmt::format(
            "the venue's configuration is of {}, and the day is {}", config.firms.date, day));
    }
    check_settings(config.engine);
    check_reserve(config);
    check_program(config);
    check_logged_program(config);
    try_configuration(config);
}

std::vector<std::string> doubts_about(const Config &config) {
    std::vector<std::string> doubts = ends_soon(
        config.engine, std::chrono::floor<std::chrono::seconds>(std::chrono::system_clock::now()));
    std::ranges::move(without_list(config.engine), std::back_inserter(doubts));
    // A gateway knows its own signatures all the same, so the day can go on. Who checks it can't.
    if (!config.keys->is_own_listed) {
        doubts.emplace_back("[seal] gateways: none of them is the public key of signing_key. Add "
                            "it: whoever checks a day by these keys accepts no signature of this "
                            "gateway");
    }
    return doubts;
}

std::vector<std::string> kept_out(const Config &config, std::string_view day) {
    std::vector<std::string> told;
    const CertifiedFirms certified(config);
    for (const std::string &name : config.firms.names) {
        const auto own = config.credentials.find(name);
        if (own == config.credentials.end()) {
            told.push_back(fmt::format("{} can't log on: it has no credentials", name));
        } else if (!own->second.ends.empty() && own->second.ends < day) {
            told.push_back(
                fmt::format("{} can't log on: its credentials held to {}", name, own->second.ends));
        } else if (const std::string why = certified.keeps_out(name, own->second); !why.empty()) {
            told.push_back(
                fmt::format("{} can't log on unless an act of the day admits it: {}", name, why));
        }
    }
    return told;
}

std::optional<int> running_gateway(const fs::path &file) {
    std::error_code fault;
    const fs::path own = fs::canonical(file, fault);
    if (fault) {
        return std::nullopt;
    }
    for (const fs::directory_entry &each : fs::directory_iterator("/proc", fault)) {
        const auto number = number_of(each.path().filename().string());
        if (number && static_cast<int>(*number) != ::getpid() && served_by(each.path()) == own) {
            return static_cast<int>(*number);
        }
    }
    return std::nullopt;
}

void check_user(const Config &config) {
    const fs::path above = above_folder_of_day(config);
    const fs::path folder = config.sqlite.empty() ? config.checkpoints
                            : above.empty()       ? config.sqlite.parent_path()
                                                  : above;
    struct stat found {};
    if (::geteuid() == 0 && ::stat(folder.c_str(), &found) == 0 && found.st_uid != 0) {
        throw std::runtime_error(fmt::format(
            "{} belongs to {}, who could not go on with what root makes there: start the gateway's "
            "service, or call this as that user (runuser -u NAME -- ..)",
            folder.string(), who_is(found.st_uid)));
    }
}

void check_machine(const Config &config) {
    check_settings(config.engine);
    check_reserve(config);
    check_logged_program(config);
    check_folders(config);
    check_folder_to_make(config.checkpoints, "[seal] checkpoints");
    check_socket(config);
    check_ports(config);
    if (!config.operator_group.empty()) {
        group_named(config.operator_group);
    }
}

std::optional<CopiesFault> fault_of_copies(const Config &config) {
    try {
        check_copies(config);
        return std::nullopt;
    } catch (const std::system_error &fault) {
        return CopiesFault{fault.what(), fault.code() == std::errc::read_only_file_system};
    } catch (const std::runtime_error &fault) {
        return CopiesFault{fault.what(), false};
    }
}

void check_start(const Config &config, std::string_view day, std::optional<int> running) {
    check_day(config, day);
    check_machine(config);
    check_copies(config);
    check_port(config.engine.address, config.engine.port, "[fix] port", running);
    check_port("127.0.0.1", config.metrics_port, "[metrics] port", running);
}

} // namespace gateway
