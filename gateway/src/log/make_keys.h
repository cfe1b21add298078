// Makes the keys of the gateways of one log.
#ifndef GATEWAY_LOG_MAKE_KEYS_H
#define GATEWAY_LOG_MAKE_KEYS_H

#include <filesystem>
#include <string>
#include <vector>

namespace gateway {

// Makes in a folder, which is made where there is none, `seal.key`, the secret of all gateways of a
// log, and of each name `NAME.pem`, what that gateway signs with, and `NAME.pub`, by which the
// others and the readers know it; `gateway` where no name is given. The secrets have the mode 0600.
// Returns the paths. Throws std::runtime_error where one of the files is there already: nothing is
// overwritten.
std::vector<std::string> make_keys(const std::filesystem::path &folder,
                                   std::vector<std::string> names);

} // namespace gateway

#endif
