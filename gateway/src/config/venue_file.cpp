#include "config/venue_file.h"

#include "base/nearest_word.h"
#include "base/printable.h"
#include "common/price.h"
#include "common/toml_bounds.h"
#include "config/venue_rules.h"

#include <algorithm>
#include <map>
#include <set>

#include <fmt/format.h>
#include <toml++/toml.h>

namespace gateway {

namespace {

// Of a value that is shown to its operator, and how many faults are.
constexpr std::size_t shown_bytes = 60;
constexpr std::size_t shown_faults = 50;

std::string lines_of(const std::filesystem::path &file, const std::vector<VenueFileFault> &faults) {
    std::string lines;
    for (std::size_t at = 0; at < std::min(faults.size(), shown_faults); ++at) {
        const VenueFileFault &fault = faults[at];
        const std::string row = fault.row.empty() ? "" : fault.row + ": ";
        lines += fmt::format("{}{}: line {}: {}{}", at == 0 ? "" : "\n", file.string(), fault.line,
                             row, fault.what);
    }
    if (faults.size() > shown_faults) {
        lines +=
            fmt::format("\n{}: and {} faults more", file.string(), faults.size() - shown_faults);
    }
    return lines;
}

std::size_t line_of_node(const toml::node &node) {
    return node.source().begin.line;
}

// A value as it may stand in a line: a text in quotation marks, and a table or a list by its kind.
std::string shown(const toml::node &node) {
    if (const auto text = node.value_exact<std::string>()) {
        return fmt::format("\"{}\"", printable(*text, shown_bytes));
    }
    if (const auto number = node.value_exact<std::int64_t>()) {
        return fmt::format("{}", *number);
    }
    if (const auto real = node.value_exact<double>()) {
        return fmt::format("{}", *real);
    }
    if (const auto flag = node.value_exact<bool>()) {
        return *flag ? "true" : "false";
    }
    return node.is_array() ? "a list" : node.is_table() ? "a table" : "a time";
}

// Holds one table against its rules, and keeps what is at fault.
class TableCheck {
  public:
    TableCheck(std::string row, std::string kind, const toml::table &table,
               std::span<const KeyRule> rules, std::vector<VenueFileFault> &faults)
        : row_(std::move(row)), kind_(std::move(kind)), table_(table), rules_(rules),
          faults_(faults) {}

    void check_values(std::int64_t version) {
        for (const KeyRule &rule : rules_) {
            const toml::node *value = table_.get(rule.key);
            if (value != nullptr && rule.since > version) {
                tell_ignored(rule, *value);
            } else if (value != nullptr) {
                check_value(rule, *value);
            } else if (rule.needed && rule.since <= version) {
                tell(line_of_node(table_),
                     fmt::format("{} is missing: it has to be {}", rule.key, rule.allowed));
            }
        }
    }

    // Every key is one of the rules', or of these.
    void check_keys(std::span<const std::string_view> others) {
        std::vector<std::string_view> known(others.begin(), others.end());
        for (const KeyRule &rule : rules_) {
            known.push_back(rule.key);
        }
        for (const auto &[key, value] : table_) {
            if (std::ranges::find(known, key.str()) == known.end()) {
                tell_unknown(key, known);
            }
        }
    }

    void tell(std::size_t line, std::string what) {
        faults_.push_back({std::max<std::size_t>(line, 1), row_, std::move(what)});
    }

  private:
    void check_value(const KeyRule &rule, const toml::node &value) {
        if (rule.kind == ValueKind::texts) {
            check_texts(rule, value);
        } else if (!is_lawful(rule, value)) {
            tell_value(rule, value);
        }
    }

    static bool is_lawful(const KeyRule &rule, const toml::node &value) {
        if (rule.kind == ValueKind::number) {
            const auto number = value.value_exact<std::int64_t>();
            return number && *number >= rule.least && *number <= rule.most &&
                   (rule.form == nullptr || rule.form(fmt::format("{}", *number)));
        }
        const auto text = value.value_exact<std::string>();
        return text && rule.form(*text);
    }

    void check_texts(const KeyRule &rule, const toml::node &value) {
        const toml::array *texts = value.as_array();
        const std::int64_t count = texts == nullptr ? 0 : static_cast<std::int64_t>(texts->size());
        if (count < rule.least || count > rule.most) {
            tell_value(rule, value);
            return;
        }
        std::set<std::string> before;
        for (const toml::node &each : *texts) {
            const auto text = each.value_exact<std::string>();
            if (!text || !rule.form(*text)) {
                tell_value(rule, each);
            } else if (!before.insert(*text).second) {
                tell(line_of_node(each), fmt::format("{} has {} twice", rule.key, shown(each)));
            }
        }
    }

    void tell_value(const KeyRule &rule, const toml::node &value) {
        tell(line_of_node(value),
             fmt::format("{} = {}: it has to be {}", rule.key, shown(value), rule.allowed));
    }

    // Whoever wrote it believes that it counts.
    void tell_ignored(const KeyRule &rule, const toml::node &value) {
        tell(line_of_node(value), fmt::format("{} = {}: it has no effect before version {}",
                                              rule.key, shown(value), rule.since));
    }

    void tell_unknown(const toml::key &key, std::span<const std::string_view> known) {
        const auto meant = nearest_word(key.str(), known);
        tell(key.source().begin.line,
             fmt::format("{} is no key of {}{}", printable(key.str(), shown_bytes), kind_,
                         meant ? fmt::format("; {}?", *meant) : std::string()));
    }

    std::string row_;
    std::string kind_;
    const toml::table &table_;
    std::span<const KeyRule> rules_;
    std::vector<VenueFileFault> &faults_;
};

// Holds a whole configuration against the rules.
class FileCheck {
  public:
    explicit FileCheck(const toml::table &table)
        : table_(table), version_(table["version"].value_or(newest_version)) {}

    std::vector<VenueFileFault> faults() {
        TableCheck top("", "the venue's configuration", table_, top_rules(), faults_);
        top.check_values(version_);
        top.check_keys(table_names);
        for (const RowRule &rule : row_rules()) {
            check_rows(rule);
        }
        std::ranges::stable_sort(faults_, {}, &VenueFileFault::line);
        return std::move(faults_);
    }

    std::vector<std::string> firms() const { return firms_; }

  private:
    static constexpr std::array<std::string_view, 3> table_names = {"bond", "dealer", "investor"};

    void check_rows(const RowRule &rule) {
        const toml::node *found = table_.get(rule.table);
        if (found == nullptr) {
            return;
        }
        const toml::array *rows = found->as_array();
        if (rows == nullptr || rows->size() > static_cast<std::size_t>(rule.most_rows)) {
            tell(line_of_node(*found), rule.table,
                 fmt::format("it has to be at most {} tables [[{}]]", rule.most_rows, rule.table));
            return;
        }
        std::int64_t sum = 0;
        for (std::size_t at = 0; at < rows->size(); ++at) {
            check_row(rule, (*rows)[at], at + 1, sum);
        }
    }

    void check_row(const RowRule &rule, const toml::node &node, std::size_t number,
                   std::int64_t &sum) {
        const toml::table *row = node.as_table();
        if (row == nullptr) {
            tell(line_of_node(node), fmt::format("{} {}", rule.table, number), "it is no table");
            return;
        }
        const std::string name = (*row)[rule.name_key].value_or(std::string());
        const std::string title =
            fmt::format("{} {}", rule.table,
                        name.empty() ? fmt::format("{}", number) : printable(name, shown_bytes));
        TableCheck check(title, (rule.table == "investor" ? "an " : "a ") + std::string(rule.table),
                         *row, rule.keys, faults_);
        check.check_values(version_);
        check.check_keys({});
        check_name(rule, *row, name, check);
        check_sum(rule, *row, sum, check);
        if (version_ >= 3 && rule.table == "bond") {
            check_band(*row, check);
        }
    }

    // A band has both ends, on the bond's grid. What is no price is told already.
    static void check_band(const toml::table &row, TableCheck &check) {
        const toml::node *low = row.get("low");
        const toml::node *high = row.get("high");
        if ((low == nullptr) != (high == nullptr)) {
            const bool has_low = low != nullptr;
            check.tell(
                line_of_node(has_low ? *low : *high),
                fmt::format("{} is missing: a band has low and high", has_low ? "high" : "low"));
        }
        const auto grid = row["grid"].value_or(std::int64_t{256});
        const std::optional<Price> least = check_end("low", low, grid, check);
        const std::optional<Price> greatest = check_end("high", high, grid, check);
        if (least && greatest && *least > *greatest) {
            check.tell(line_of_node(*low), fmt::format("low = {}: it has to be at most high, {}",
                                                       shown(*low), shown(*high)));
        }
    }

    static std::optional<Price> check_end(std::string_view key, const toml::node *end,
                                          std::int64_t grid, TableCheck &check) {
        const std::optional<std::string> text =
            end == nullptr ? std::nullopt : end->value_exact<std::string>();
        const std::optional<Price> price = text ? price_of(*text) : std::nullopt;
        const bool is_grid = grid == 32 || grid == 64 || grid == 128 || grid == 256;
        if (price && is_grid && !price->is_on_grid(static_cast<int>(grid))) {
            check.tell(line_of_node(*end),
                       fmt::format("{} = {}: it has to be on the bond's grid of 1/{}", key,
                                   shown(*end), grid));
        }
        return price;
    }

    // No bond is there twice, and no firm, whether it is a dealer or an investor.
    void check_name(const RowRule &rule, const toml::table &row, const std::string &name,
                    TableCheck &check) {
        if (name.empty()) {
            return;
        }
        const bool is_firm = rule.table != "bond";
        const toml::node &node = *row.get(rule.name_key);
        const auto [first, fresh] =
            (is_firm ? firm_lines_ : bond_lines_).emplace(name, line_of_node(node));
        if (!fresh) {
            check.tell(line_of_node(node), fmt::format("{} = {}: line {} has it already",
                                                       rule.name_key, shown(node), first->second));
        } else if (is_firm) {
            firms_.push_back(name);
        }
    }

    void check_sum(const RowRule &rule, const toml::table &row, std::int64_t &sum,
                   TableCheck &check) {
        const toml::node *value = rule.sum_key.empty() ? nullptr : row.get(rule.sum_key);
        const std::int64_t own = value == nullptr ? 0 : value->value_or(std::int64_t{0});
        if (own < 0 || own > rule.most_sum || sum > rule.most_sum) {
            return;
        }
        sum += own;
        if (sum > rule.most_sum) {
            check.tell(line_of_node(*value),
                       fmt::format("{} = {}: the {}s up to this one have {}, and all may have {}",
                                   rule.sum_key, own, rule.table, sum, rule.most_sum));
        }
    }

    void tell(std::size_t line, std::string_view row, std::string what) {
        faults_.push_back({std::max<std::size_t>(line, 1), std::string(row), std::move(what)});
    }

    const toml::table &table_;
    std::int64_t version_;
    std::vector<VenueFileFault> faults_;
    std::map<std::string, std::size_t> bond_lines_;
    std::map<std::string, std::size_t> firm_lines_;
    std::vector<std::string> firms_;
};

toml::table parse(const std::filesystem::path &file, const std::string &text) {
    if (auto excess = excess_of(text)) {
        throw VenueFileFaults(file, {{excess->line, "", std::move(excess->what)}});
    }
    try {
        return toml::parse(text);
    } catch (const toml::parse_error &fault) {
        throw VenueFileFaults(file,
                              {{fault.source().begin.line, "", std::string(fault.description())}});
    }
}

} // namespace

VenueFileFaults::VenueFileFaults(const std::filesystem::path &file,
                                 std::vector<VenueFileFault> faults)
    : std::runtime_error(lines_of(file, faults)), file_(file), faults_(std::move(faults)) {}

VenueFile read_venue_file(const std::filesystem::path &file, std::string text,
                          std::string_view day) {
    const toml::table table = parse(file, text);
    FileCheck check(table);
    std::vector<VenueFileFault> faults = check.faults();
    if (!faults.empty()) {
        throw VenueFileFaults(file, std::move(faults));
    }
    VenueFile venue;
    venue.has_own_date = table.contains("date");
    venue.date = table["date"].value_or(std::string(day));
    venue.firms = check.firms();
    // Above all tables, so it stands in none of them.
    venue.text =
        venue.has_own_date ? std::move(text) : fmt::format("date = \"{}\"\n{}", venue.date, text);
    if (!venue.text.ends_with('\n')) {
        venue.text += '\n';
    }
    if (auto excess = excess_of(venue.text)) {
        // As it stands in entry 0, from where it is read again.
        throw VenueFileFaults(file, {{excess->line, "", "with its date " + excess->what}});
    }
    return venue;
}

} // namespace gateway
