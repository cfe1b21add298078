#include "programs.h"

#include "common/web/secrets.h"
#include "file_store.h"

#include <nlohmann/json.hpp>

namespace desk {

using nlohmann::json;

Programs::Programs(std::vector<Program> programs, std::string path)
    : programs_(std::move(programs)), path_(std::move(path)) {
    read_each(path_, [this](const std::string &name, const json &one) {
        stops_[name] = {one.at("by").get<std::string>(),
                        Moment(std::chrono::milliseconds(one.at("at")))};
    });
}

const Program *Programs::with_token(const std::string &token) const {
    const std::string digest = web::digest_of(token);
    const Program *found = nullptr;
    for (const Program &one : programs_) {
        found = web::are_equal(one.token_digest, digest) ? &one : found;
    }
    return found;
}

const Program *Programs::named(const std::string &name) const {
    for (const Program &one : programs_) {
        if (one.acts_as.name == name) {
            return &one;
        }
    }
    return nullptr;
}

void Programs::stop(const std::string &name, const std::string &by, Moment at) {
    stops_.try_emplace(name, Stop{by, at}); // who stopped it first
}

void Programs::stop_all(const std::string &by, Moment at) {
    for (const Program &one : programs_) {
        stop(one.acts_as.name, by, at);
    }
}

void Programs::connected(const std::string &name, bool is_on) {
    if (is_on) {
        connected_.insert(name);
    } else {
        connected_.erase(name);
    }
}

json Programs::view() const {
    json all = json::array();
    for (const Program &one : programs_) {
        const std::string &name = one.acts_as.name;
        const auto stop = stops_.find(name);
        const bool is_stopped = stop != stops_.end();
        all.push_back({{"name", name},
                       {"trader", one.acts_as.login},
                       {"isOn", connected_.contains(name)},
                       {"isStopped", is_stopped},
                       {"by", is_stopped ? stop->second.by : ""},
                       {"since", is_stopped ? json(milliseconds_of(stop->second.at)) : json()}});
    }
    return {{"t", "programs"}, {"programs", std::move(all)}};
}

std::function<std::string()> Programs::writer() const {
    json text = json::object();
    for (const auto &[name, one] : stops_) {
        text[name] = {{"by", one.by}, {"at", milliseconds_of(one.at)}};
    }
    return writer_of(path_, std::move(text));
}

} // namespace desk
