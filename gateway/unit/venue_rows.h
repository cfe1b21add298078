// The rows of a venue's configuration that is lawful. A test puts those together that it needs.
#ifndef GATEWAY_TESTS_VENUE_ROWS_H
#define GATEWAY_TESTS_VENUE_ROWS_H

#include <cstdint>
#include <string>

#include <fmt/format.h>

namespace gateway::tests {

// A bond, with these lines behind its id.
inline std::string bond_row(const std::string &lines = "") {
    return "[[bond]]\nid = \"BONDA0000001\"\n" + lines;
}

struct DealerRow {
    std::string name = "DLR1";
    std::string traders = R"("T1")"; // as the list has them
    std::int64_t quotes = 4096, exposure = 250'000'000;
};

inline std::string dealer_row(const DealerRow &row = {}) {
    return fmt::format("[[dealer]]\nname = \"{}\"\ntraders = [{}]\nquotes = {}\nexposure = {}\n",
                       row.name, row.traders, row.quotes, row.exposure);
}

struct InvestorRow {
    std::string name = "INV1";
    std::string traders = R"("T8")";
    std::int64_t requests = 256, open = 16, quantity = 5'000'000;
};

inline std::string investor_row(const InvestorRow &row = {}) {
    return fmt::format(
        "[[investor]]\nname = \"{}\"\ntraders = [{}]\nrequests = {}\nopen = {}\nquantity = {}\n",
        row.name, row.traders, row.requests, row.open, row.quantity);
}

// A venue of one bond, one dealer and one investor.
inline std::string least_venue() {
    return "version = 1\n" + bond_row() + dealer_row() + investor_row();
}

} // namespace gateway::tests

#endif
