// The operator's command `hand-out`.
#include "operator/admin_command.h"

#include "config/configuration_for_firm.h"

#include <fmt/format.h>

namespace gateway {

namespace {

// Of one venue; where venues have names, behind a line with its own. What is of several is no file
// of TOML.
std::string told_of(Leader &leader, const std::string &firm) {
    const Config &config = leader.day().config;
    const std::string text = configuration_for_firm(config.configuration, firm);
    return config.venue.empty() ? text : fmt::format("# {}\n{}", config.venue, text);
}

} // namespace

AdminAnswer run_hand_out(AdminCall &call) {
    const std::string venue = take_venue(call);
    check_words(call, 1, 1);
    OpenDay day(call.scene);
    AdminAnswer answer;
    for (Leader *leader : day.leaders_of(call.words[0], venue)) {
        answer.said += told_of(*leader, call.words[0]);
    }
    return answer;
}

} // namespace gateway
