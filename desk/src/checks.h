// Finds reasons not to send something, and tells them to the trader before anything is sent. They
// are help and no rule: the venue decides. Each function gives the reason in words, or an empty
// text.
#ifndef DESK_CHECKS_H
#define DESK_CHECKS_H

#include "command.h"
#include "config.h"
#include "dealer_day.h"
#include "investor_day.h"
#include "references.h"

#include <string>
#include <vector>

namespace desk {

// The sum of the live quotes, and of those that are sent and not answered, of all who share this
// trader's limits.
Quantity exposure_of(const Trader &trader, const DealerDay &day);

std::string why_not(const command::Ask &ask, const Trader &trader, const Market &market,
                    const InvestorDay &day, Moment now);
// Each line by itself; that there is no room for all at once is no fault.
std::string why_not(const command::AskList &list, const Trader &trader, const Market &market,
                    const InvestorDay &day, Moment now);
std::string why_not(const command::Hit &hit, const Trader &trader, const InvestorDay &day,
                    Moment now);
std::string why_not(const command::Pass &pass, const InvestorDay &day);
std::string why_not(const command::Quote &quote, const Trader &trader, const Market &market,
                    const DealerDay &day, Moment now);
// Where a page asks once more, a program is refused: a price that is far from the firm's reference,
// its last one on this bond and side or its other live quotes on the bond, or that there is nothing
// to hold against.
std::string why_ask(const command::Quote &quote, const References &references,
                    const DealerDay &day);
std::string why_not(const command::Withdraw &withdraw, const DealerDay &day);
std::string why_not(const command::Decline &decline, const DealerDay &day);
std::string why_not(const command::ClaimRequest &claim, const Trader &trader, const DealerDay &day);
std::string why_not(const command::ReleaseRequest &release, const DealerDay &day);
std::string why_not(const command::HandOver &hand_over, const Trader &trader,
                    const std::vector<Trader> &traders, const DealerDay &day);

} // namespace desk

#endif
