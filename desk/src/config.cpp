#include "config.h"

#include "bonds_file.h"
#include "common/password.h"
#include "common/web/secrets.h"
#include "fix_config.h"
#include "toml_file.h"

#include <algorithm>

namespace desk {

namespace {

web::ServerSettings server_of(const TomlTable &part) {
    part.allow({"listen", "port", "hosts", "certificate", "key", "lock_after_minutes"});
    web::ServerSettings settings;
    if (part.has("listen")) {
        settings.address = part.text("listen");
    }
    settings.port = static_cast<unsigned short>(part.number("port", 0, 65535));
    if (part.has("hosts")) {
        settings.hosts = part.texts("hosts");
    }
    if (part.has("certificate")) {
        settings.certificate = web::Certificate{part.file("certificate"), part.file("key")};
    }
    return settings;
}

void read_rights(const TomlTable &row, Role role, Trader &trader) {
    const std::string own = role == Role::dealer ? "quote" : "ask";
    for (const std::string &word : row.texts("may")) {
        if (word != "look" && word != own && word != "admin") {
            row.fail("'may' has '" + word + "'; a trader of this firm may 'look', '" + own +
                     "' and 'admin'");
        }
        trader.may_act = trader.may_act || word == own;
        trader.is_admin = trader.is_admin || word == "admin";
    }
}

Trader trader_of(const TomlTable &row, Role role) {
    row.allow({"login", "password", "name", "may", "quantity", "exposure"});
    Trader trader{row.text("login"), row.text("password"), row.text("name"), false, {}, {}};
    read_rights(row, role, trader);
    trader.names = {trader.name};
    if (!gateway::is_hash(trader.password)) {
        row.fail("'password' is no hash: mireseason-desk --hash makes one");
    }
    constexpr Quantity most = 1'000'000'000'000'000;
    if (row.has("quantity")) {
        trader.quantity = row.number("quantity", 1, most);
    }
    if (row.has("exposure")) {
        trader.exposure = row.number("exposure", 1, most);
    }
    return trader;
}

void check_logins(const TomlTable &file, const std::vector<Trader> &traders) {
    if (traders.empty()) {
        file.fail("there is no [[trader]]: nobody could log in");
    }
    for (const Trader &trader : traders) {
        const auto same = [&](const Trader &other) { return other.login == trader.login; };
        if (std::count_if(traders.begin(), traders.end(), same) > 1) {
            file.fail("two traders have the login '" + trader.login + "'");
        }
    }
}

constexpr std::size_t least_token = 32, most_token = 256; // characters

std::string token_digest_in(const TomlTable &row) {
    const std::string path = row.file("token_file"), token = secret_of(path);
    const bool is_plain =
        std::all_of(token.begin(), token.end(), [](unsigned char c) { return c > ' ' && c < 127; });
    if (!is_plain || token.size() < least_token || token.size() > most_token) {
        row.fail("'token_file': the first line of " + path + " has to be " +
                 std::to_string(least_token) + " to " + std::to_string(most_token) +
                 " characters without a space");
    }
    return web::digest_of(token);
}

// Those who have a name (50): traders of the page, and programs before this one.
bool is_taken(const Config &config, const std::string &name) {
    return std::any_of(config.traders.begin(), config.traders.end(), [&](const Trader &one) {
        return std::count(one.names.begin(), one.names.end(), name) > 0;
    });
}

void read_program(const TomlTable &row, Config &config) {
    row.allow({"name", "login", "token_file"});
    const std::string name = row.text("name"), login = row.text("login");
    const auto trader = std::find_if(config.traders.begin(), config.traders.end(),
                                     [&](const Trader &one) { return one.login == login; });
    if (trader == config.traders.end()) {
        row.fail("'login' is '" + login + "', which no [[trader]] has");
    }
    if (is_taken(config, name)) {
        row.fail("'name' is '" + name +
                 "', which another program has: the name says which of them did something");
    }
    Program program{token_digest_in(row), *trader};
    if (std::any_of(config.programs.begin(), config.programs.end(),
                    [&](const Program &one) { return one.token_digest == program.token_digest; })) {
        row.fail("'token_file' has the token of another program");
    }
    program.acts_as.name = name;
    program.acts_as.is_program = true;
    trader->names.push_back(name);
    config.programs.push_back(std::move(program));
}

void read_programs(const TomlTable &file, Config &config) {
    for (const TomlTable &row : file.tables("program")) {
        read_program(row, config);
    }
    for (Program &one : config.programs) { // each knows all that share its limits
        one.acts_as.names =
            std::find_if(config.traders.begin(), config.traders.end(), [&](const Trader &trader) {
                return trader.login == one.acts_as.login;
            })->names;
    }
}

// Who the firm is, and what its operator handed out.
void read_firm(const TomlTable &file, Config &config) {
    config.firm = file.text("firm");
    const std::string role = file.text("role");
    if (role != "dealer" && role != "investor") {
        file.fail("'role' has to be \"dealer\" or \"investor\"");
    }
    config.role = role == "dealer" ? Role::dealer : Role::investor;
    config.market = read_market(file.file("market"), config.firm, config.role);
    if (file.has("bonds")) {
        config.bonds = read_bonds(file.file("bonds"), config.market);
    }
}

void read_page(const TomlTable &file, Config &config) {
    if (file.has("pages")) {
        config.pages = file.file("pages");
    }
    if (file.has("banner")) {
        config.banner = file.text("banner");
    }
    const TomlTable page = file.table("page");
    config.server = server_of(page);
    if (page.has("lock_after_minutes")) {
        config.lock_after = std::chrono::minutes(page.number("lock_after_minutes", 1, 720));
    }
    web::check(config.server);
}

} // namespace

Config read_config(const std::string &path) {
    const toml::table text = read_toml(path);
    const TomlTable file(path, "", text);
    file.allow({"firm", "role", "market", "bonds", "data", "pages", "banner", "fix", "page",
                "trader", "program"});
    Config config;
    read_firm(file, config);
    config.data = file.file("data");
    const TomlTable fix = file.table("fix");
    config.fix = fix_settings_of(fix, config.firm);
    if (fix.has("deliver_within_seconds")) {
        config.deliver_within = std::chrono::seconds(fix.number("deliver_within_seconds", 1, 60));
    }
    read_page(file, config);
    for (const TomlTable &row : file.tables("trader")) {
        config.traders.push_back(trader_of(row, config.role));
    }
    check_logins(file, config.traders);
    read_programs(file, config);
    return config;
}

} // namespace desk
