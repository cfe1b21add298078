#include "file_store.h"

#include "common/descriptor.h"
#include "safe_names.h"

#include <cerrno>
#include <cstring>
#include <fstream>
#include <map>
#include <stdexcept>

#include <fcntl.h>
#include <nlohmann/json.hpp>
#include <sys/stat.h>
#include <unistd.h>

namespace desk {

using nlohmann::json;

namespace {

// Whether what was written to the file is safe against a power cut.
bool synchronise_file(const std::string &path) {
    const gateway::Descriptor file(::open(path.c_str(), O_RDONLY | O_CLOEXEC));
    return file.number() >= 0 && ::fsync(file.number()) == 0;
}

} // namespace

json read_json(const std::string &path) {
    std::ifstream file(path);
    json text = file ? json::parse(file, nullptr, false) : json();
    return text.is_object() ? text : json::object();
}

void read_each(const std::string &path,
               const std::function<void(const std::string &, const json &)> &each) {
    std::ifstream file(path);
    if (!file) {
        return;
    }
    const json text = json::parse(file, nullptr, false);
    try {
        for (const auto &[key, value] : text.get<std::map<std::string, json>>()) {
            each(key, value);
        }
    } catch (const json::exception &fault) {
        throw std::runtime_error(path + " is not as the desk wrote it: " + fault.what());
    }
}

std::function<std::string()> writer_of(const std::string &path, json text) {
    return [path, text = std::move(text)]() -> std::string {
        try {
            write_json(path, text);
        } catch (const std::exception &fault) {
            return std::string("It holds only until the next start: ") + fault.what();
        }
        return {};
    };
}

void write_json(const std::string &path, const json &text) {
    const std::string fresh = path + ".new";
    {
        std::ofstream file(fresh, std::ios::trunc);
        ::chmod(fresh.c_str(), S_IRUSR | S_IWUSR);
        file << text.dump(1, ' ', false, json::error_handler_t::replace) << '\n';
        if (!file.flush()) {
            throw std::runtime_error(fresh + " can't be written");
        }
    }
    if (!synchronise_file(fresh)) {
        throw std::runtime_error(fresh + " can't be synchronised: " + std::strerror(errno));
    }
    rename_safely(fresh, path);
}

} // namespace desk
