// The operator's command `firms`.
#include "operator/admin_command.h"

#include <fmt/format.h>

namespace gateway {

namespace {

std::string words_of(const FirmSessions::Facts &firm) {
    std::string words = firm.is_suspended ? "suspended" : "";
    if (firm.lacks_report) {
        words += words.empty() ? "uncertified" : " uncertified";
    }
    for (const auto &[key, value] : firm.set) {
        words += fmt::format("{}{}={}", words.empty() ? "" : " ", key, value);
    }
    return words;
}

} // namespace

AdminAnswer run_firms(AdminCall &call) {
    check_words(call, 0, 0);
    OpenDay day(call.scene);
    AdminAnswer answer;
    for (Leader *leader : day.leaders()) {
        for (const FirmSessions::Facts &firm : leader->sessions().facts()) {
            answer.rows.push_back({{"firm", firm.firm},
                                   {"venue", leader->day().config.venue},
                                   {"logged_on", firm.since},
                                   {"address", firm.address},
                                   {"messages", std::uint64_t{firm.entries}},
                                   {"day_bytes", firm.bytes},
                                   {"day_bytes_limit", firm.bytes_limit},
                                   {"set", words_of(firm)}});
        }
    }
    return answer;
}

} // namespace gateway
