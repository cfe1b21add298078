// Reads the part [fix] of a configuration: how to reach the venue, and who logs on.
#ifndef DESK_FIX_CONFIG_H
#define DESK_FIX_CONFIG_H

#include "fix_session.h"
#include "toml_file.h"

#include <string>

namespace desk {

// Reads the file of the password too. Throws std::runtime_error with file, key and cause.
// The first line of a file that only its owner may read. Throws std::runtime_error.
std::string secret_of(const std::string &path);

FixSettings fix_settings_of(const TomlTable &part, const std::string &firm);

} // namespace desk

#endif
