// Finds out what a start would meet, without starting.
#ifndef GATEWAY_SERVICE_START_CHECK_H
#define GATEWAY_SERVICE_START_CHECK_H

#include "config/config.h"

#include <filesystem>
#include <optional>
#include <string>
#include <string_view>
#include <vector>

namespace gateway {

// Holds a configuration against what this day (eight digits) needs: its date, the certificates, and
// a program of the venue that takes it. Throws std::runtime_error with the first fault.
void check_day(const Config &config, std::string_view day);
// Throws std::runtime_error where this process is root's and the logs are another user's, who could
// not go on with what root makes.
void check_user(const Config &config);
// What a start needs of this machine, but for ports: what the sessions begin with, the log's
// folders, room, and the operators' group. Throws std::runtime_error with the first fault.
void check_machine(const Config &config);
// What keeps days from being copied, though a start goes well.
struct CopiesFault {
    std::string words;
    bool is_read_only = false; // to this process
};
std::optional<CopiesFault> fault_of_copies(const Config &config);
// The same as check_day(), and what a start needs beside it: the folders of logs and copies, the
// operators' group, and ports that nobody has but the gateway of this configuration that runs, a
// process.
void check_start(const Config &config, std::string_view day, std::optional<int> running);
// What is no fault of a configuration now, and yet hardly meant or soon one, a sentence each.
std::vector<std::string> doubts_about(const Config &config);
// The firms that can't log on on this day, each with the reason, in words.
std::vector<std::string> kept_out(const Config &config, std::string_view day);
// The process of a gateway that runs with this configuration's file; nothing where none is seen.
std::optional<int> running_gateway(const std::filesystem::path &file);

} // namespace gateway

#endif
