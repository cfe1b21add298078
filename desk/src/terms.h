// The words of the market that both sides of the desk use.
#ifndef DESK_TERMS_H
#define DESK_TERMS_H

#include "moment.h"
#include "price.h"

#include <cstdint>
#include <optional>
#include <string>
#include <vector>

namespace desk {

enum class Role { investor, dealer };

// Of the investor, as Side (54): who buys is shown offers, who sells bids.
enum class Side : char { buy = '1', sell = '2' };

using Quantity = std::int64_t; // of nominal

// What a trader may do to a request.
enum class Act { ask, hit, pass, quote, withdraw, decline };
// The noun that a person, and the page, has for it.
const char *name_of(Act act);

// What was sent and is not answered yet.
struct Pending {
    Act act = Act::ask;
    std::string quote;  // its QuoteID (117), if it has one
    std::string trader; // SenderSubID (50)
    Moment since;
};

// Something that a trader is told of a request.
struct Told {
    Moment at;
    std::string text;
    bool is_refusal = false;
    std::string trader; // of the firm, SenderSubID (50); empty where the venue acted
};

// A request that a dealer's trader has taken on. It forbids nobody anything.
struct Claim {
    std::string login;
    std::string trader; // SenderSubID (50)
    Moment at;
};

// What a request of either side has. Its history has a limit.
struct Request {
    std::string id; // QuoteReqID (131)
    std::string bond;
    Side side = Side::buy;
    Quantity quantity = 0;
    Moment deadline;
    Moment made;
    std::optional<Moment> ended;
    std::vector<Pending> pending;
    std::optional<Told> told; // the last thing that matters now
    std::vector<Told> history;
    std::string trade; // its name, TradeID (1003), where the venue tells it
    std::optional<Claim> claim;

    // Whether one of these is sent and not answered yet.
    bool awaits(Act act) const;
    // The first pending one of these was answered; whose it was.
    std::string settle(Act act, const std::string &quote);
    // A line of its history, with the trader of the firm who acted; and one that a trader is told,
    // too.
    void note(Moment at, const std::string &text, const std::string &trader = "");
    void tell(Moment at, const std::string &text, bool is_refusal = false,
              const std::string &trader = "");
};

} // namespace desk

#endif
