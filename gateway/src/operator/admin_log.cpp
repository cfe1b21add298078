// The operator's command `log accept-loss`.
#include "operator/admin_command.h"

namespace gateway {

// With `--halt` the venue is halted by the same transaction: what was lost may come again from an
// engine as soon as the day opens, and no second command can be sure to be earlier.
AdminAnswer run_log_accept_loss(AdminCall &call) {
    const bool halts = call.words == std::vector<std::string>{"--halt"};
    check_words(call, 0, halts ? 1 : 0);
    check_reason(call, "the disk of db1 is gone");
    std::vector<Act> acts{call.act("log accept-loss")};
    if (halts) {
        acts.push_back(call.act("halt"));
    }
    return {call.scene.accept_loss(acts) + (halts ? "; the venue is halted until `resume`" : ""),
            {}};
}

} // namespace gateway
