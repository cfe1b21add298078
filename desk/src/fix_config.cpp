#include "fix_config.h"

#include <fstream>
#include <stdexcept>

#include <sys/stat.h>

namespace desk {

namespace {

FixAddress address_of(const TomlTable &part, const std::string &text) {
    const std::size_t colon = text.rfind(':');
    const std::string port = colon == std::string::npos ? "" : text.substr(colon + 1);
    const bool is_number = !port.empty() && port.size() <= 5 &&
                           port.find_first_not_of("0123456789") == std::string::npos;
    if (!is_number || colon == 0 || std::stoi(port) > 65535) {
        part.fail("'" + text + "' is no HOST:PORT");
    }
    return FixAddress{text.substr(0, colon), std::stoi(port)};
}

} // namespace

std::string secret_of(const std::string &path) {
    struct stat facts {};
    if (::stat(path.c_str(), &facts) != 0) {
        throw std::runtime_error(path + " can't be read");
    }
    if ((facts.st_mode & (S_IRWXG | S_IRWXO)) != 0) {
        throw std::runtime_error(path + " may be read by others than its owner: chmod 600");
    }
    std::ifstream file(path);
    std::string line;
    if (!std::getline(file, line) || line.empty()) {
        throw std::runtime_error(path + " has no secret in its first line");
    }
    return line;
}

FixSettings fix_settings_of(const TomlTable &part, const std::string &firm) {
    part.allow({"addresses", "username", "password_file", "dictionaries", "authorities",
                "certificate", "key", "deliver_within_seconds"});
    FixSettings fix;
    for (const std::string &text : part.texts("addresses")) {
        fix.addresses.push_back(address_of(part, text));
    }
    if (fix.addresses.empty()) {
        part.fail("'addresses' names no address of the venue");
    }
    fix.firm = firm;
    fix.username = part.text("username");
    fix.password = secret_of(part.file("password_file"));
    fix.dictionaries = part.file("dictionaries");
    fix.has_tls = part.has("authorities");
    if (fix.has_tls) {
        fix.tls.authorities = part.file("authorities");
    }
    if (part.has("certificate")) {
        fix.tls.certificate = part.file("certificate");
        fix.tls.key = part.file("key");
    }
    return fix;
}

} // namespace desk
