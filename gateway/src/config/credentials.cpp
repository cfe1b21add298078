#include "config/credentials.h"

#include "common/password.h"
#include "config/config_section.h"
#include "config/venue_rules.h"

#include <algorithm>

#include <fmt/format.h>
#include <toml++/toml.h>

namespace gateway {

namespace {

namespace fs = std::filesystem;

std::vector<AddressRange> addresses_in(Section &row) {
    std::vector<AddressRange> addresses;
    for (const std::string &word :
         row.has("addresses") ? row.words("addresses") : std::vector<std::string>{}) {
        const auto range = address_range_of(word);
        if (!range) {
            row.fail_at("addresses", fmt::format("has {}, which is no address of IPv4, and no "
                                                 "A.B.C.D/BITS",
                                                 word));
        }
        addresses.push_back(*range);
    }
    return addresses;
}

// Whether a row of the venue's dealers is this firm's, and has this trader.
bool has_trader(const toml::node &dealer, const std::string &firm, const std::string &trader) {
    const toml::table &row = *dealer.as_table();
    const toml::array *traders = row["traders"].as_array();
    const auto is_his = [&](const toml::node &each) {
        return each.value_or(std::string()) == trader;
    };
    return row["name"].value_or(std::string()) == firm && traders != nullptr &&
           std::any_of(traders->begin(), traders->end(), is_his);
}

// The trader who cancels is one of the dealer's own, so that the venue takes his cancel.
void check_trader(const Section &row, const std::string &configuration, const std::string &firm,
                  const std::string &trader) {
    const toml::table venue = parse("entry 0", configuration);
    const toml::array *dealers = venue["dealer"].as_array();
    const auto has = [&](const toml::node &each) { return has_trader(each, firm, trader); };
    if (dealers == nullptr || std::none_of(dealers->begin(), dealers->end(), has)) {
        row.fail_at("cancel_on_disconnect",
                    fmt::format("is {}: there is no dealer {} with such a trader", trader, firm));
    }
}

Credentials credentials_in(Section &row) {
    Credentials own;
    own.username = row.text_of_need("username");
    own.password_hash = row.text_of_need("password");
    if (!is_hash(own.password_hash)) {
        row.fail_at("password", "is no hash: --hash makes one");
    }
    own.cancel_on_disconnect = row.text("cancel_on_disconnect");
    own.day_bytes = row.number("day_bytes", 0, 0, most_day_bytes);
    own.ends = row.text("ends");
    if (!own.ends.empty() && !is_date(own.ends)) {
        row.fail_at("ends", "is no date YYYYMMDD");
    }
    own.addresses = addresses_in(row);
    if (row.has("report")) {
        own.report = signed_report_of(row.text("report"));
        if (!own.report) {
            row.fail_at("report", "is no line of a report: mireseason-admin admit writes it");
        }
    }
    row.end();
    return own;
}

} // namespace

std::map<std::string, Credentials> credentials_of(const std::vector<std::string> &firms,
                                                  const std::string &configuration,
                                                  const fs::path &file, ConfigFiles &files) {
    files.require_private(file);
    if (files.text(file).empty()) {
        // As an editor leaves it where the disk is full: nobody is to be logged out by that.
        fail(file, "has nothing in it");
    }
    std::map<std::string, Credentials> all;
    const toml::table table = parse(file, files.text(file));
    for (const auto &[key, node] : table) {
        const std::string firm(key.str());
        Section row(file, firm, node.as_table());
        const Credentials own = credentials_in(row);
        if (std::ranges::find(firms, firm) == firms.end()) {
            continue;
        }
        if (!own.cancel_on_disconnect.empty()) {
            check_trader(row, configuration, firm, own.cancel_on_disconnect);
        }
        all[firm] = own;
    }
    return all;
}

} // namespace gateway
