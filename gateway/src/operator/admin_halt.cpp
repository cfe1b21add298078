// The operator's commands `halt` and `resume`.
#include "operator/admin_command.h"

#include "config/firm_row.h"

#include <fmt/format.h>

namespace gateway {

namespace {

// The bond that `--bond ID` names; empty where there are no words.
std::string bond_of(const AdminCall &call) {
    if (call.words.empty()) {
        return "";
    }
    if (call.words.size() != 2 || call.words[0] != "--bond") {
        throw WrongWords();
    }
    if (call.words[1].empty()) {
        // As an unset variable of a script: it is not the whole venue.
        throw AdminFault("--bond needs an ID after it");
    }
    return call.words[1];
}

// Whom it is about: all venues, or those that have the bond.
std::vector<Leader *> leaders_of(OpenDay &day, const std::string &bond) {
    std::vector<Leader *> all = day.leaders();
    std::erase_if(all, [&](Leader *each) {
        return !bond.empty() && !has_bond(each->day().config.configuration, bond);
    });
    if (all.empty()) {
        throw AdminFault(fmt::format("the venue has no bond {}", bond));
    }
    return all;
}

void commit(AdminCall &call, const char *word, const std::string &bond) {
    OpenDay day(call.scene);
    const std::string act = bond.empty() ? word : fmt::format("{} --bond {}", word, bond);
    for (Leader *leader : leaders_of(day, bond)) {
        OpenDay::commit(*leader, call.act(act));
    }
}

} // namespace

AdminAnswer run_halt(AdminCall &call) {
    const std::string bond = bond_of(call);
    check_reason(call, "prices are in doubt");
    commit(call, "halt", bond);
    return {fmt::format("no request, quote or hit {}is taken until `resume`; cancels, declines and "
                        "passes are",
                        bond.empty() ? "" : fmt::format("of {} ", bond)),
            {}};
}

// What is not taken all the same, a line each.
std::string said_of_rest(AdminCall &call) {
    OpenDay day(call.scene);
    std::string said;
    for (const std::string &line : day.gateway().not_taken()) {
        said += "\n" + line;
    }
    return said;
}

AdminAnswer run_resume(AdminCall &call) {
    if (call.words.size() == 1) {
        return resume_firm(call);
    }
    const std::string bond = bond_of(call);
    commit(call, "resume", bond);
    const std::string rest = said_of_rest(call);
    return {fmt::format("{} goes on{}{}", bond.empty() ? "the venue" : bond,
                        rest.empty() ? "" : ", but for this:", rest),
            {}};
}

} // namespace gateway
