// Keeps small files: it reads them at a start, and writes one anew when something in it changes.
#ifndef DESK_FILE_STORE_H
#define DESK_FILE_STORE_H

#include <functional>
#include <string>

#include <nlohmann/json_fwd.hpp>

namespace desk {

// An empty object where there is no such file, or none of this form.
nlohmann::json read_json(const std::string &path);

// Hands each key of a file's object to `each`; a file that is there and has another form is a
// fault, for what may not be forgotten. Throws std::runtime_error.
void read_each(const std::string &path,
               const std::function<void(const std::string &, const nlohmann::json &)> &each);

// Whole or not at all, for its owner alone. Throws std::runtime_error.
void write_json(const std::string &path, const nlohmann::json &text);

// What writes this text: it waits for the disk, on any thread, and says in words why it could not.
std::function<std::string()> writer_of(const std::string &path, nlohmann::json text);

} // namespace desk

#endif
