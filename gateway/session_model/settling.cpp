#include "settling.h"

#include <algorithm>

namespace session_model {

void take_answer(SessionState &session, const Incoming &message) {
    Line &line = session.line;
    const std::optional<std::uint32_t> answered = message.fields.number(tag::TestReqID);
    if (!answered || line.first_test == 0 || *answered < line.first_test ||
        *answered > line.last_test) {
        return;
    }
    session.day.had = std::max<std::uint64_t>(session.day.had, *answered);
    if (*answered >= line.overtook) {
        line.is_settled = true;
        line.is_held = false;
        line.is_test_due = false;
    }
}

bool owes_nothing(const Day &day) {
    return day.had >= day.last_kept;
}

bool may_leave(const Line &line, Text type) {
    return line.is_settled || type != "3";
}

} // namespace session_model
