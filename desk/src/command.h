// Reads what a page asks the desk to do.
#ifndef DESK_COMMAND_H
#define DESK_COMMAND_H

#include "lists.h"
#include "terms.h"

#include <chrono>
#include <optional>
#include <string>
#include <variant>
#include <vector>

#include <nlohmann/json_fwd.hpp>

namespace desk {

namespace command {

struct Ask {
    std::string bond;
    Side side = Side::buy;
    Quantity quantity = 0;
    std::chrono::seconds within{0}; // to the deadline
    std::vector<std::string> dealers;
    std::string id{}; // of its request, where it is a line of a list; no page gives it
};

// The price is the one that the trader was shown.
struct Hit {
    std::string request;
    std::string quote;
    Price price;
};

struct Pass {
    std::string request;
};

struct Quote {
    std::string request;
    Price price;
    std::optional<std::chrono::seconds> valid_for; // to the deadline where there is none
    std::string replaces; // the live quote that the trader was shown; empty for none
};

struct Withdraw {
    std::string request;
};

struct Decline {
    std::string request;
};

struct CancelAll {};

// A dealer's trader takes a request on, gives it up, or gives it to a colleague.
struct ClaimRequest {
    std::string request;
};

struct ReleaseRequest {
    std::string request;
};

struct HandOver {
    std::string request;
    std::string to; // a login
};

// The firm's admin: a trader's limits, none where there is no value.
struct SetLimits {
    std::string login;
    std::optional<Quantity> quantity;
    std::optional<Quantity> exposure;
};

// The admin: a bond's reference price, or that it has none.
struct SetReference {
    std::string bond;
    std::optional<Price> price;
};

// The admin: how far a price may be from what it is held against; nothing: as far as usual.
struct SetDistance {
    std::optional<Price> distance;
};

// A trader: a program of the firm does nothing from now on, or may act again.
struct StopProgram {
    std::string name;
};

struct ReleaseProgram {
    std::string name;
};

// Several requests with the same dealers and time; each is asked when there is room for it.
struct AskList {
    std::string name;
    std::chrono::seconds within{0};
    std::vector<std::string> dealers;
    std::vector<ListLine> lines;
};

// No more of a list is asked.
struct StopList {
    std::string list;
};

// Saves a group of dealers under a name, or forgets the name where no dealer is in it.
struct SaveGroup {
    std::string name;
    std::vector<std::string> dealers;
};

} // namespace command

using Command =
    std::variant<command::Ask, command::Hit, command::Pass, command::Quote, command::Withdraw,
                 command::Decline, command::CancelAll, command::SaveGroup, command::ClaimRequest,
                 command::ReleaseRequest, command::HandOver, command::SetLimits,
                 command::SetReference, command::SetDistance, command::StopProgram,
                 command::ReleaseProgram, command::AskList, command::StopList>;

// Nothing where it is none: a page of this desk sends no such thing.
std::optional<Command> read_command(const nlohmann::json &text);

} // namespace desk

#endif
