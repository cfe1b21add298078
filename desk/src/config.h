// Reads the configuration of one firm's desk. desk/README.md describes every key.
#ifndef DESK_CONFIG_H
#define DESK_CONFIG_H

#include "bond_terms.h"
#include "common/web/server_settings.h"
#include "fix_session.h"
#include "market.h"
#include "terms.h"

#include <chrono>
#include <optional>
#include <string>
#include <vector>

namespace desk {

// One who uses the desk.
struct Trader {
    std::string login;
    std::string password;             // its hash, as crypt(5) writes it
    std::string name;                 // SenderSubID (50)
    bool may_act = false;             // ask or quote; else only look
    std::optional<Quantity> quantity; // the most of one request or quote
    std::optional<Quantity> exposure; // the most of all its live quotes; of a dealer alone
    bool is_admin = false;            // sets limits and references
    bool is_program = false;
    std::vector<std::string> names{}; // its own and those of its programs, which share its limits
};

// A program of the firm's own, with the rights of one trader.
struct Program {
    std::string token_digest; // of its token
    Trader acts_as;           // that trader, under the program's name (50)
};

struct Config {
    std::string firm;
    Role role = Role::investor;
    Market market;
    BondTable bonds;                  // those of the market that have static data
    std::string data;                 // the folder of the journal and of what logins there are
    std::optional<std::string> pages; // a folder of pages in place of the built-in ones
    std::string banner; // a line that every page shows, such as what kind of venue it is; or empty
    FixSettings fix;
    std::chrono::milliseconds deliver_within{5000};
    web::ServerSettings server;
    // Without a key or a press in the pages of a login; never where there is none.
    std::optional<std::chrono::minutes> lock_after;
    std::vector<Trader> traders;
    std::vector<Program> programs;
};

// Reads all that the configuration names, too. Throws std::runtime_error with file, key and cause.
Config read_config(const std::string &path);

} // namespace desk

#endif
