// bond-values BONDS.toml: prints for the tests what the desk works out of bonds. It reads lines
// `ID price|yield VALUE GRID YYYY-MM-DD` and prints `SETTLES ACCRUED PRICE YIELD`, or `none`.
#include "bond_values.h"
#include "bonds_file.h"
#include "toml_file.h"

#include <cstdio>
#include <exception>
#include <iostream>
#include <sstream>
#include <string>

namespace {

desk::Market market_of(const std::string &path) {
    const toml::table text = desk::read_toml(path);
    desk::Market market;
    for (const desk::TomlTable &row : desk::TomlTable(path, "", text).tables("bond")) {
        market.bonds.push_back({row.text("id"), row.text("id"), 256});
    }
    return market;
}

void answer(const desk::BondValues &values, const std::string &line) {
    std::istringstream words(line);
    std::string id, kind;
    double number = 0;
    int grid = 0, year = 0, month = 0, day = 0;
    char dash = 0;
    words >> id >> kind >> number >> grid >> year >> dash >> month >> dash >> day;
    const desk::Date traded = std::chrono::year(year) / month / day;
    const auto value =
        kind == "price" ? values.of_price(id, desk::Price{static_cast<int>(number * 256)}, traded)
                        : values.of_yield(id, number, grid, traded);
    if (!value) {
        std::puts("none");
        return;
    }
    std::printf("%04d-%02u-%02u %.12f %.8f %.12f\n", int(value->settles.year()),
                unsigned(value->settles.month()), unsigned(value->settles.day()), value->accrued,
                value->price.in_256ths / 256.0, value->yield);
}

} // namespace

int main(int count, char **words) {
    try {
        const std::string path = count == 2 ? words[1] : "";
        const desk::BondValues values(desk::read_bonds(path, market_of(path)));
        for (std::string line; std::getline(std::cin, line);) {
            answer(values, line);
        }
        return 0;
    } catch (const std::exception &fault) {
        std::cerr << fault.what() << '\n';
        return 1;
    }
}
