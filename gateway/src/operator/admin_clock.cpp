// The operator's command `clock accept`.
#include "operator/admin_command.h"

namespace gateway {

AdminAnswer run_clock_accept(AdminCall &call) {
    check_words(call, 0, 0);
    OpenDay day(call.scene);
    std::vector<Leader *> doubtful = day.leaders();
    std::erase_if(doubtful, [](Leader *each) { return each->day().clock_is_right.load(); });
    if (doubtful.empty()) {
        throw AdminFault("the clock is not in doubt: requests and quotes are taken");
    }
    for (Leader *leader : doubtful) {
        OpenDay::commit(*leader, call.act("clock accept"));
    }
    return {"requests and quotes are taken again", {}};
}

} // namespace gateway
