// Renames files so that their names outlive a power cut.
#ifndef DESK_SAFE_NAMES_H
#define DESK_SAFE_NAMES_H

#include <string>

namespace desk {

// Whether the names of the folder of this file are safe against a power cut when it returns; errno
// says why not.
bool synchronise_names(const std::string &path);

// A file has another name, in the same folder, and keeps it over a power cut. Throws
// std::runtime_error.
void rename_safely(const std::string &from, const std::string &to);

} // namespace desk

#endif
