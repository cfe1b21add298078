// Copies files, and compares them by their SHA-256.
#ifndef GATEWAY_BASE_FILE_COPY_H
#define GATEWAY_BASE_FILE_COPY_H

#include "base/digest.h"

#include <filesystem>
#include <stop_token>

namespace gateway {

// The SHA-256 of a file of any length. Throws std::runtime_error where it can't be read, or the
// stop is asked for.
Digest sha256_of_file(const std::filesystem::path &file, const std::stop_token &stop);

// Copies a file to a name that is free, with this mode. On disk, and read again from there, when it
// returns its SHA-256. Throws std::runtime_error where that is not the one of what was read, and
// as above.
Digest copy_file_checked(const std::filesystem::path &from, const std::filesystem::path &to,
                         unsigned mode, const std::stop_token &stop);

// The names in a folder are on disk when it returns. Throws std::runtime_error.
void synchronise_folder(const std::filesystem::path &folder);

} // namespace gateway

#endif
