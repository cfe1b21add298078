#include "terms.h"

#include <algorithm>

namespace desk {

namespace {

constexpr std::size_t most_history = 256; // lines; the oldest goes

} // namespace

const char *name_of(Act act) {
    switch (act) {
    case Act::ask:
        return "request";
    case Act::hit:
        return "hit";
    case Act::pass:
        return "pass";
    case Act::quote:
        return "quote";
    case Act::withdraw:
        return "withdrawal";
    case Act::decline:
        return "decline";
    }
    return "";
}

bool Request::awaits(Act act) const {
    return std::any_of(pending.begin(), pending.end(),
                       [&](const Pending &one) { return one.act == act; });
}

std::string Request::settle(Act act, const std::string &quote) {
    const auto found = std::find_if(pending.begin(), pending.end(), [&](const Pending &one) {
        return one.act == act && one.quote == quote;
    });
    if (found == pending.end()) {
        return {};
    }
    std::string trader = found->trader;
    pending.erase(found);
    return trader;
}

void Request::note(Moment at, const std::string &text, const std::string &trader) {
    if (history.size() >= most_history) {
        history.erase(history.begin());
    }
    history.push_back(Told{at, text, false, trader});
}

void Request::tell(Moment at, const std::string &text, bool is_refusal, const std::string &trader) {
    note(at, text, trader);
    history.back().is_refusal = is_refusal;
    told = history.back();
}

} // namespace desk
