// The file of the firms' credentials.
#ifndef GATEWAY_CONFIG_CREDENTIALS_H
#define GATEWAY_CONFIG_CREDENTIALS_H

#include "config/address_range.h"
#include "config/config_files.h"
#include "config/signed_report.h"

#include <cstddef>
#include <cstdint>
#include <filesystem>
#include <map>
#include <optional>
#include <string>
#include <vector>

namespace gateway {

// By which a firm may log on, and what is its own.
struct Credentials {
    std::string username;
    std::string password_hash;        // as crypt(5) has it
    std::string cancel_on_disconnect; // a trader, or empty
    std::string ends{};               // YYYYMMDD, the last day on which they hold; empty for none
    std::vector<AddressRange> addresses{}; // that the firm may come from; none where from any
    std::uint64_t day_bytes = 0;          // of its lines in the log; 0 where it has the usual limit
    std::optional<SignedReport> report{}; // that an operator has admitted
};

// The greatest limit of a firm's bytes of a day: more than a day can have.
constexpr std::size_t most_day_bytes = std::size_t{1} << 40;

// The credentials of these firms of a venue with this configuration, by their names. The parts of
// other firms are left out, and have to be of the same form: their day may be tomorrow. Throws
// std::runtime_error that names the file, the firm and the key.
std::map<std::string, Credentials> credentials_of(const std::vector<std::string> &firms,
                                                  const std::string &configuration,
                                                  const std::filesystem::path &file,
                                                  ConfigFiles &files);

} // namespace gateway

#endif
