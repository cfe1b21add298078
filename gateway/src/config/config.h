// Everything that the gateway is configured with: its own file, the credentials, and the firms of
// the venue's configuration.
#ifndef GATEWAY_CONFIG_CONFIG_H
#define GATEWAY_CONFIG_CONFIG_H

#include "config/config_files.h"
#include "config/credentials.h"
#include "config/rate_limits.h"
#include "config/trading_days.h"
#include "log/fair_share.h"
#include "log/seals.h"
#include "session/engine_settings.h"

#include <filesystem>
#include <map>
#include <memory>
#include <optional>
#include <string>
#include <string_view>
#include <vector>

namespace gateway {

// What of the venue's configuration concerns the gateway.
struct VenueFirms {
    std::string date;
    std::vector<std::string> names;
    bool has_own_date = false; // else it was given the day's, and is of any
};

// Whether firms need a report of mireseason-certify that was admitted, and who signs these.
struct Certification {
    bool is_needed = false;
    std::shared_ptr<const SigningKey> key{}; // null where none is named
};

struct Config {
    std::string venue; // its name, empty where it is the only one
    std::vector<std::string> command;
    std::filesystem::path program;
    bool confined = false;     // the venue's process has no network, and its own files alone
    std::string configuration; // the venue's, byte for byte, with a line feed at its end
    VenueFirms firms;

    std::filesystem::path sqlite;    // the log's file; empty where it is in PostgreSQL
    std::filesystem::path log_files; // the same, with `{date}` in the place of the day's
    std::string postgres;
    std::string schema;
    std::string name;               // of this gateway, for those who look who speaks
    std::string synchronous_commit; // of PostgreSQL: `on` waits for a standby, if there is one
    std::filesystem::path disk;     // a folder on the log's disk; empty where none is known
    std::uint64_t reserve = 0;      // bytes of it that are held back
    std::filesystem::path spool;    // the folder of what sessions may have to send again

    std::shared_ptr<const SealKeys> keys;    // of the log's seals and signatures
    std::filesystem::path checkpoints;       // the folder in which the last signature is kept
    std::vector<std::string> checkpoints_to; // a program that is given each; empty for none

    std::filesystem::path copies;    // the folder that ended days are copied to; empty for none
    std::filesystem::path sealed;    // where a keeper tells which days are sealed; empty for none
    std::optional<std::size_t> keep; // days whose log stays though it is copied; all where unset

    EngineSettings engine;
    std::map<std::string, Credentials> credentials;
    Certification certification;

    std::size_t waiting_entries = 4096;
    std::size_t waiting_messages = 16384;
    unsigned venue_starts = 3;
    unsigned venue_seconds = 30; // that a venue may be silent while it has something to answer
    RateLimits rates;
    ShareLimits shares;
    std::uint64_t day_bytes = 1073741824;

    // The texts of the acts by which an operator accepted that the log begins anew; none as a rule.
    std::vector<std::string> opening_acts;

    DayRules days;

    std::filesystem::path operator_socket; // empty for none
    std::string operator_group;            // whose members may use it; empty for none

    unsigned short metrics_port = 0;
    std::string event_level = "info";
};

// Reads the file and those that it names: one configuration for each venue, and what is not a
// venue's own is the same in all. A venue's configuration that has no date is given this day's
// (eight digits). Throws std::runtime_error that names the file and the key.
std::vector<Config> read_configs(ConfigFiles &files, const std::filesystem::path &path,
                                 std::string_view day);

// What credentials are that hold on a day on which no venue has their firm. As a rule its name is
// misspelled, and read_configs() takes them for faults.
enum class UnknownFirms { are_faults, count_for_nothing };

std::vector<Config> read_configs(ConfigFiles &files, const std::filesystem::path &path,
                                 std::string_view day, UnknownFirms unknown);

// The firms whose credentials hold on the day of these configurations, and that none of them has:
// each may be new on the next day. Throws as read_configs().
std::vector<std::string> unknown_firms(const std::filesystem::path &path,
                                       const std::vector<Config> &configs);

// The file of the credentials. Throws as read_configs().
std::filesystem::path credentials_file(ConfigFiles &files, const std::filesystem::path &path);

// A venue's configuration, and where its log of a day is: of the rest of Config nothing but its
// name is set.
struct VenuePlace {
    std::filesystem::path file;
    Config log;
};

// Of each venue; no file is read but the first. Throws as read_configs().
std::vector<VenuePlace> venue_places(ConfigFiles &files, const std::filesystem::path &path,
                                     std::string_view day);

// Reads the credentials and the part [tls] again, for a configuration that is in force: all the
// rest is as it was. Throws as read_configs().
Config read_access(const std::filesystem::path &path, const Config &in_force);

} // namespace gateway

#endif
