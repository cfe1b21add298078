// The operator's command `next-day`.
#include "operator/admin_command.h"

#include <algorithm>

#include <fmt/format.h>

namespace gateway {

namespace {

// The names that one list has and the other has not.
std::string names_without(const std::vector<std::string> &names,
                          const std::vector<std::string> &others) {
    std::string text;
    for (const std::string &name : names) {
        if (std::find(others.begin(), others.end(), name) == others.end()) {
            text += (text.empty() ? "" : " ") + name;
        }
    }
    return text;
}

// The configuration of the day that goes on, of the venue of this name; null where none does.
const Config *config_today(const AdminScene::HeldDay &held, const std::string &venue) {
    if (held.gateway == nullptr) {
        return nullptr;
    }
    for (const Config &config : held.gateway->configs()) {
        if (config.venue == venue) {
            return &config;
        }
    }
    return nullptr;
}

AdminAnswer::Row row_of(const AdminScene::NextDay &day, const Config &next, const Config *today) {
    const std::vector<std::string> before =
        today != nullptr ? today->firms.names : next.firms.names;
    return {{"date", day.date},
            {"venue", next.venue},
            {"opens", day.opens},
            {"ends", day.ends},
            {"firms", std::uint64_t{next.firms.names.size()}},
            {"new_firms", names_without(next.firms.names, before)},
            {"firms_gone", names_without(before, next.firms.names)}};
}

std::string text_of(const std::vector<std::string> &faults) {
    if (faults.empty()) {
        return "the files are right";
    }
    std::string text = "the files are at fault, and the day opens with what was right last:";
    for (const std::string &fault : faults) {
        text += "\n" + fault;
    }
    return text;
}

} // namespace

AdminAnswer run_next_day(AdminCall &call) {
    check_words(call, 0, 0);
    const AdminScene::NextDay day = call.scene.next_day();
    const AdminScene::HeldDay held = call.scene.hold_day();
    AdminAnswer answer{text_of(day.faults), {}};
    for (const Config &config : day.configs) {
        answer.rows.push_back(row_of(day, config, config_today(held, config.venue)));
    }
    return answer;
}

} // namespace gateway
