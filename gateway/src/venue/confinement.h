// Confines the venue's process to its program and three pipes.
#ifndef GATEWAY_VENUE_CONFINEMENT_H
#define GATEWAY_VENUE_CONFINEMENT_H

#include <string>
#include <string_view>
#include <vector>

namespace gateway {

// The line that a confined command begins its standard error with where the kernel has no Landlock.
constexpr std::string_view no_landlock =
    "this kernel has no Landlock: it may read any file of its user\n";

// The words that start a command confined: this program, which confines itself and then becomes it.
// Where it is not to be confined they are the command's own.
std::vector<std::string> words_of_start(const std::vector<std::string> &command, bool is_confined);

// Confines this process for good, with what it starts, and becomes the command. It reads the
// system's programs and libraries, the folder that the command's program is installed in, and the
// folders of the files that its words name; and nothing else: no key, no database. It writes no
// file, has no network, reaches no other process, and has PATH alone of this one's environment.
// Where the kernel knows no Landlock the line no_landlock says that it is not confined to these
// files. Does not return; throws std::system_error.
[[noreturn]] void become_confined(const std::vector<std::string> &command);

} // namespace gateway

#endif
