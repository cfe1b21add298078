// The operator's command `reload`.
#include "operator/admin_command.h"

#include <stdexcept>

#include <fmt/format.h>

namespace gateway {

namespace {

void commit(AdminCall &call, const char *words) {
    OpenDay day(call.scene);
    for (Leader *leader : day.leaders()) {
        OpenDay::commit(*leader, call.act(words));
    }
}

// So that the record says what came of it; the cause, which may name another firm, is an event. The
// operator is told of the files, whatever becomes of this.
void commit_refusal(AdminCall &call) {
    try {
        commit(call, "reload refused");
    } catch (const AdminFault &) {
    }
}

// What is at fault, empty where nothing is; nothing where they were not read in time. The day may
// end before: nobody waits for that.
std::optional<std::string> read_again(AdminCall &call) {
    const AdminScene::HeldDay held = call.scene.hold_day();
    return held.gateway != nullptr ? held.gateway->renew_within(longest_act)
                                   : std::optional<std::string>();
}

// The firms of the files that the day has not: new ones of tomorrow, or misspelled names.
std::string said_of_unknown(AdminCall &call) {
    const AdminScene::HeldDay held = call.scene.hold_day();
    const auto unknown =
        held.gateway != nullptr ? held.gateway->unknown_firms() : std::vector<std::string>();
    std::string said;
    for (const std::string &firm : unknown) {
        said += fmt::format("\n{} is no firm of today: its credentials count from the day whose "
                            "venue.toml has it",
                            firm);
    }
    return said;
}

} // namespace

AdminAnswer run_reload(AdminCall &call) {
    check_words(call, 0, 0);
    commit(call, "reload");
    const std::optional<std::string> fault = read_again(call);
    if (!fault) {
        throw AdminFault(fmt::format(
            "the files were not read within {} s: the day ends, or its log does not answer",
            longest_act.count()));
    }
    if (!fault->empty()) {
        commit_refusal(call);
        throw AdminFault(fmt::format("credentials and certificates stay as they were: {}", *fault));
    }
    return {"credentials and certificates were read again" + said_of_unknown(call), {}};
}

} // namespace gateway
