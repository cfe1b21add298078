// The operator's command `bust`.
#include "operator/admin_command.h"

#include <algorithm>
#include <string_view>
#include <vector>

#include <fmt/format.h>

namespace gateway {

namespace {

// DATE-INVESTOR-DEALER-K, as TradeID (1003) has it.
struct TradeName {
    std::string text;
    std::string date;
    std::string investor;
    std::string dealer;
};

[[noreturn]] void fail_name(const std::string &text) {
    throw AdminFault(fmt::format("`{}` is no trade's name: it is DATE-INVESTOR-DEALER-K, as both "
                                 "firms have it in TradeID (1003)",
                                 text.substr(0, 60)));
}

bool is_number(std::string_view text) {
    return !text.empty() && text.size() <= 9 && text.front() != '0' &&
           std::all_of(text.begin(), text.end(), [](char c) { return c >= '0' && c <= '9'; });
}

TradeName name_of(const std::string &text) {
    std::vector<std::string> parts;
    std::size_t from = 0;
    for (std::size_t at = text.find('-'); at != std::string::npos; at = text.find('-', from)) {
        parts.push_back(text.substr(from, at - from));
        from = at + 1;
    }
    if (parts.size() != 3 || !is_number(text.substr(from))) {
        fail_name(text);
    }
    return {text, parts[0], parts[1], parts[2]};
}

// Those of this day that have both firms.
std::vector<Leader *> leaders_of(OpenDay &day, const TradeName &name) {
    std::vector<Leader *> all = day.leaders();
    std::erase_if(all, [&](Leader *each) {
        const FirmSessions &sessions = each->sessions();
        return !sessions.has_firm(name.investor) || !sessions.has_firm(name.dealer);
    });
    if (all.empty()) {
        throw AdminFault(fmt::format("no venue has both {} and {}", name.investor, name.dealer));
    }
    const std::string date = all.front()->day().clock.date();
    if (name.date != date) {
        throw AdminFault(fmt::format("{} is of another day than {}: a trade is voided on its own "
                                     "day",
                                     name.text, date));
    }
    return all;
}

// The venue of the trade: each counts the trades of two firms for itself, so that several may have
// one of this name. Then it has to be named.
Leader &leader_of(OpenDay &day, const TradeName &trade, const std::string &venue) {
    std::vector<Leader *> all = leaders_of(day, trade);
    std::erase_if(all, [&](Leader *each) {
        const bool is_meant = venue.empty() || each->day().config.venue == venue;
        return !is_meant || !each->day().trades.has(trade.text);
    });
    if (all.empty()) {
        throw AdminFault(fmt::format("there is no trade {} today{}{}", trade.text,
                                     venue.empty() ? "" : " at ", venue));
    }
    if (all.size() > 1) {
        throw AdminFault(fmt::format("several venues have a trade {}: say whose by --venue: {}",
                                     trade.text, venues_of(all)));
    }
    return *all.front();
}

} // namespace

AdminAnswer run_bust(AdminCall &call) {
    const std::string venue = take_venue(call);
    check_words(call, 1, 1);
    check_reason(call, "both firms agreed by phone");
    const TradeName trade = name_of(call.words[0]);
    OpenDay day(call.scene);
    Leader &leader = leader_of(day, trade, venue);
    const Act act = call.act(fmt::format("bust {}", trade.text));
    // A reason that is too long voids nothing.
    text_of(act);
    // Before the commit, so that of two operators one does it.
    if (!leader.day().trades.make_void(trade.text)) {
        throw AdminFault(
            fmt::format("{} is void already: mireseason-audit acts says why", trade.text));
    }
    OpenDay::commit(leader, act);
    return {fmt::format("{} is void: the record says so, and no firm is sent anything", trade.text),
            {}};
}

} // namespace gateway
