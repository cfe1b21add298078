#include "groups.h"

#include "file_store.h"

#include <algorithm>
#include <cstddef>
#include <exception>

#include <nlohmann/json.hpp>

namespace desk {

namespace {

constexpr std::size_t most_groups = 16;
constexpr std::ptrdiff_t most_name = 24; // characters

// Of a text in UTF-8: the bytes that begin one.
std::ptrdiff_t characters_of(const std::string &text) {
    return std::count_if(text.begin(), text.end(),
                         [](char one) { return (static_cast<unsigned char>(one) & 0xC0) != 0x80; });
}

} // namespace

GroupStore::GroupStore(std::string path) : path_(std::move(path)) {
    try {
        groups_ = read_json(path_).get<std::map<std::string, Groups>>();
    } catch (const nlohmann::json::exception &) {
        groups_.clear(); // a file of another form: they are saved anew
    }
}

const Groups &GroupStore::of(const std::string &login) const {
    static const Groups none;
    const auto found = groups_.find(login);
    return found == groups_.end() ? none : found->second;
}

std::string GroupStore::set(const std::string &login, const std::string &name,
                            const std::vector<std::string> &dealers) {
    Groups &own = groups_[login];
    if (name.empty() || characters_of(name) > most_name) {
        return "A group's name has 1 to " + std::to_string(most_name) + " characters.";
    }
    if (!dealers.empty() && !own.contains(name) && own.size() >= most_groups) {
        return "There are " + std::to_string(most_groups) + " groups: remove one first.";
    }
    if (dealers.empty()) {
        own.erase(name);
    } else {
        own[name] = dealers;
    }
    return {};
}

std::function<std::string()> GroupStore::writer() const {
    return [path = path_, text = nlohmann::json(groups_)]() -> std::string {
        try {
            write_json(path, text);
        } catch (const std::exception &fault) {
            return std::string("The group is not saved: ") + fault.what();
        }
        return {};
    };
}

} // namespace desk
