// The operator's command `limit`.
#include "operator/admin_command.h"

#include "base/nearest_word.h"
#include "firms/firm_limits.h"

#include <algorithm>

#include <fmt/format.h>

namespace gateway {

namespace {

constexpr std::string_view as_configured = "configured";

std::string names() {
    std::string all;
    for (const LimitKey &key : limit_keys) {
        all += fmt::format("{}{}", all.empty() ? "" : ", ", key.name);
    }
    return all;
}

const LimitKey &key_of(const std::string &name) {
    if (const LimitKey *key = limit_key(name)) {
        return *key;
    }
    throw AdminFault(fmt::format("there is no limit `{}`: the limits are {}", name, names()));
}

bool is_number(std::string_view text) {
    return !text.empty() && text.size() <= 15 &&
           std::all_of(text.begin(), text.end(), [](char c) { return c >= '0' && c <= '9'; });
}

// KEY=VALUE as it stands in the act: a number has no zeros in front.
std::string setting_of(const std::string &word) {
    const std::size_t sign = word.find('=');
    if (sign == std::string::npos) {
        throw WrongWords();
    }
    const LimitKey &key = key_of(word.substr(0, sign));
    const std::string value = word.substr(sign + 1);
    if (value == as_configured) {
        return fmt::format("{}={}", key.name, value);
    }
    const std::uint64_t number = is_number(value) ? std::stoull(value) : 0;
    if (number < key.least || number > key.most) {
        throw AdminFault(fmt::format("{} is a number from {} to {}, or `{}`", key.name, key.least,
                                     key.most, as_configured));
    }
    return fmt::format("{}={}", key.name, number);
}

AdminAnswer show(const std::vector<Leader *> &leaders, const std::string &firm) {
    AdminAnswer answer;
    for (Leader *leader : leaders) {
        for (const FirmSessions::Facts &each : leader->sessions().facts()) {
            for (const auto &[name, value] :
                 each.firm == firm ? each.limits : decltype(each.limits){}) {
                answer.rows.push_back({{"limit", name},
                                       {"venue", leader->day().config.venue},
                                       {"value", value},
                                       {"set", each.set.contains(name)}});
            }
        }
    }
    return answer;
}

} // namespace

AdminAnswer run_limit(AdminCall &call) {
    check_words(call, 1, 2);
    const std::string &firm = call.words[0];
    OpenDay day(call.scene);
    const std::vector<Leader *> leaders = day.leaders_of(firm);
    if (call.words.size() == 1) {
        return show(leaders, firm);
    }
    const std::string setting = setting_of(call.words[1]);
    for (Leader *leader : leaders) {
        OpenDay::commit(*leader, call.act(fmt::format("limit {} {}", firm, setting)));
    }
    return {fmt::format("{} has {} from now on, for this day", firm, setting), {}};
}

} // namespace gateway
