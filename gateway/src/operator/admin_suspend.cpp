// The operator's commands for one firm: `suspend`, `resume FIRM`, `cancel`, `reset-session` and
// `release`.
#include "operator/admin_command.h"

#include "config/firm_row.h"

#include <algorithm>

#include <fmt/format.h>
#include <fmt/ranges.h>

namespace gateway {

namespace {

// Commits an act about the firm at each of these venues, and has it done. It has these words.
template <typename Commit>
void order(const AdminCall &call, const char *word, const std::vector<Leader *> &leaders,
           const Commit &commit) {
    const Act act = call.act(fmt::format("{} {}", word, call.words[0]));
    for (Leader *leader : leaders) {
        commit(*leader, act);
        leader->carry_out_orders();
    }
}

// Empty where the firm may have quotes of the trader, or any where none is named.
std::string why_no_quotes(const FirmRow &row, const FirmEnd &end) {
    if (!row.is_dealer) {
        return fmt::format("{} is an investor, and has no quotes", end.firm);
    }
    if (!end.trader.empty() &&
        std::find(row.traders.begin(), row.traders.end(), end.trader) == row.traders.end()) {
        return fmt::format("{} has no trader {}: its traders are {}", end.firm, end.trader,
                           fmt::join(row.traders, ", "));
    }
    return {};
}

// The venues with such quotes: a firm may have other traders at each. Throws AdminFault where there
// is none.
std::vector<Leader *> leaders_with_quotes(OpenDay &day, const FirmEnd &end) {
    std::vector<Leader *> all = day.leaders_of(end.firm);
    std::string why;
    std::erase_if(all, [&](Leader *each) {
        const FirmRow row = firm_row(each->day().config.configuration, end.firm);
        const std::string why_not_here = why_no_quotes(row, end);
        why = why.empty() ? why_not_here : why;
        return !why_not_here.empty();
    });
    if (all.empty()) {
        throw AdminFault(why);
    }
    return all;
}

} // namespace

AdminAnswer run_suspend(AdminCall &call) {
    check_words(call, 1, 1);
    check_reason(call, "their risk desk called");
    OpenDay day(call.scene);
    order(call, "suspend", day.leaders_of(call.words[0]), [&](Leader &leader, const Act &act) {
        OpenDay::commit_with_end(leader, {call.words[0]}, act);
    });
    return {fmt::format("{} is logged out and refused, and what it had open is taken back, until "
                        "`resume {}`",
                        call.words[0], call.words[0]),
            {}};
}

AdminAnswer resume_firm(AdminCall &call) {
    OpenDay day(call.scene);
    order(call, "resume", day.leaders_of(call.words[0]), OpenDay::commit);
    return {fmt::format("{} may log on again", call.words[0]), {}};
}

AdminAnswer run_cancel(AdminCall &call) {
    if (call.words.size() != 1 && (call.words.size() != 3 || call.words[1] != "--trader")) {
        throw WrongWords();
    }
    const FirmEnd end{call.words[0], call.words.size() == 3 ? call.words[2] : ""};
    if (call.words.size() == 3 && end.trader.empty()) {
        throw AdminFault("--trader needs a name after it");
    }
    check_reason(call, "their desk has lost its connection");
    OpenDay day(call.scene);
    const std::string of_trader = end.trader.empty() ? "" : " --trader " + end.trader;
    for (Leader *leader : leaders_with_quotes(day, end)) {
        OpenDay::commit_with_end(*leader, end,
                                 call.act(fmt::format("cancel {}{}", end.firm, of_trader)));
    }
    return {fmt::format("{} are cancelled; the firm is told as if it had cancelled them",
                        end.trader.empty()
                            ? fmt::format("all quotes of {}", end.firm)
                            : fmt::format("the quotes that {} of {} sent", end.trader, end.firm)),
            {}};
}

// At one venue alone: what can't be taken back leaves the firm's session at another one as it is.
AdminAnswer run_reset_session(AdminCall &call) {
    const std::string venue = take_venue(call);
    check_words(call, 1, 1);
    OpenDay day(call.scene);
    const std::vector<Leader *> found = day.leaders_of(call.words[0], venue);
    if (found.size() > 1) {
        throw AdminFault(fmt::format("{} has a session at several venues: say which by --venue: {}",
                                     call.words[0], venues_of(found)));
    }
    order(call, "reset-session", found, OpenDay::commit);
    return {
        fmt::format("the numbers of {} begin at 1: its next Logon has 34=1, or 141=Y. What it "
                    "is not known to have comes again under new numbers, marked as a copy (97=Y)",
                    call.words[0]),
        {}};
}

AdminAnswer run_release(AdminCall &call) {
    const std::string venue = take_venue(call);
    check_words(call, 1, 1);
    OpenDay day(call.scene);
    order(call, "release", day.leaders_of(call.words[0], venue), OpenDay::commit);
    return {fmt::format("{} may log on with its numbers as they are", call.words[0]), {}};
}

} // namespace gateway
