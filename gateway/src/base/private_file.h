// Opens files that hold secrets, and refuses those that others may read.
#ifndef GATEWAY_BASE_PRIVATE_FILE_H
#define GATEWAY_BASE_PRIVATE_FILE_H

#include <filesystem>
#include <string>

namespace gateway {

// Reads a file that has a secret. Throws std::runtime_error that names it where it can't be read,
// where its group may write it, or where others may read or write it.
std::string read_private(const std::filesystem::path &path);

// The same of a file that is not read here: nothing where there is none, or no name of one.
void check_private(const std::filesystem::path &path);

// What this process makes from now on is nothing that others may read, whatever its umask was.
void make_files_private();

// Reads any other. Throws std::runtime_error that names it where it can't be read.
std::string read_public(const std::filesystem::path &path);

// Writes a file that was not there, with this mode, and returns when it is on disk. Throws where
// one is there.
void write_new(const std::filesystem::path &path, const std::string &text, unsigned mode);

// Puts a text in a file's place: whoever reads it, also after a cut of power, finds the old text or
// the new one. Throws std::runtime_error that names it.
void replace_file(const std::filesystem::path &path, const std::string &text);

} // namespace gateway

#endif
