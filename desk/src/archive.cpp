#include "archive.h"

#include "day.h"
#include "journal.h"
#include "valued_views.h"

#include <algorithm>
#include <cctype>
#include <filesystem>
#include <memory>
#include <optional>
#include <sstream>
#include <string_view>
#include <system_error>
#include <utility>

namespace desk {

using nlohmann::json;

namespace {

constexpr std::string_view name_begin = "journal-";
constexpr std::size_t date_digits = 8;

bool is_date(const std::string &text) {
    return text.size() == date_digits &&
           std::all_of(text.begin(), text.end(), [](unsigned char c) { return std::isdigit(c); });
}

std::string lowered(std::string text) {
    std::transform(text.begin(), text.end(), text.begin(),
                   [](unsigned char c) { return static_cast<char>(std::tolower(c)); });
    return text;
}

// The values of a view, without their keys.
void gather(const json &view, std::string &text) {
    if (view.is_structured()) {
        for (const json &one : view) {
            gather(one, text);
        }
    } else if (view.is_string()) {
        text += view.get<std::string>() + '\n';
    } else {
        text += view.dump() + '\n';
    }
}

// What a person may look for in a request. A dealer's page calls a side by what the firm would do.
std::string text_of(const json &view, const Market &market, Role role) {
    std::string text;
    gather(view, text);
    if (const Bond *bond = market.bond(view.at("bond"))) {
        text += bond->name + '\n';
    }
    if (role == Role::dealer) {
        text += view.at("side") == "buy" ? "offer" : "bid";
    }
    return lowered(std::move(text));
}

bool is_number(std::string_view text) {
    return !text.empty() && std::all_of(text.begin(), text.end(),
                                        [](unsigned char c) { return std::isdigit(c) != 0; });
}

// Takes what a word ends with off it.
bool take_end(std::string_view &word, std::string_view end) {
    const bool has = word.ends_with(end);
    word.remove_suffix(has ? end.size() : 0);
    return has;
}

// `2m`, `1.5m` and `500k` in digits; nothing where it is no such quantity.
std::optional<std::string> quantity_in(std::string_view word) {
    std::size_t zeros = 0;
    for (const auto &[unit, count] : {std::pair("k", 3), {"mm", 6}, {"m", 6}, {"b", 9}}) {
        if (zeros == 0 && take_end(word, unit)) {
            zeros = static_cast<std::size_t>(count);
        }
    }
    const std::size_t point = std::min(word.find('.'), word.size());
    std::string digits(word.substr(0, point));
    std::string part(word.substr(std::min(point + 1, word.size())));
    part.erase(part.find_last_not_of('0') + 1);
    if (zeros == 0 || part.size() > zeros || !is_number(digits + part)) {
        return {};
    }
    digits += part + std::string(zeros - part.size(), '0');
    const std::size_t first = digits.find_first_not_of('0');
    return first == std::string::npos ? std::nullopt : std::optional(digits.substr(first));
}

// `99-16+`, whole points, 32nds and eighths of one, as the decimal of the desk's own words.
std::optional<std::string> price_in(std::string_view word) {
    const std::size_t dash = word.find_first_of("-'");
    const std::string_view points = word.substr(0, dash);
    std::string_view rest = word.substr(std::min(dash, word.size() - 1) + 1);
    int eighths = take_end(rest, "+") ? 4 : 0;
    if (eighths == 0 && rest.size() == 3 && rest[2] >= '1' && rest[2] <= '7') {
        eighths = rest[2] - '0';
        rest.remove_suffix(1);
    }
    if (!is_number(points) || points.size() > 3 || !is_number(rest) || rest.size() > 2) {
        return {};
    }
    const int parts = std::stoi(std::string(rest));
    const Price price{std::stoi(std::string(points)) * 256 + parts * 8 + eighths};
    return parts < 32 ? std::optional(text_of(price)) : std::nullopt;
}

// A quantity and a price as the desk writes them, however the page reads them.
std::string plain(std::string word) {
    std::erase(word, ',');
    if (word.empty()) {
        return word;
    }
    const std::optional<std::string> quantity = quantity_in(word);
    return quantity ? *quantity : price_in(word).value_or(word);
}

bool has_all(const std::string &text, const std::vector<std::string> &words) {
    return std::all_of(words.begin(), words.end(), [&](const std::string &word) {
        return text.find(word) != std::string::npos;
    });
}

std::vector<std::string> words_in(const std::string &text) {
    std::istringstream rest(lowered(text));
    std::vector<std::string> words;
    for (std::string word; rest >> word;) {
        words.push_back(plain(word));
    }
    return words;
}

} // namespace

std::vector<std::string> Archive::days(const std::string &today) const {
    std::vector<std::string> days;
    std::error_code fault;
    for (const auto &file : std::filesystem::directory_iterator(folder_, fault)) {
        const std::string name = file.path().filename();
        const std::string day =
            name.starts_with(name_begin) ? name.substr(name_begin.size()) : std::string();
        if (is_date(day) && day < today) {
            days.push_back(day);
        }
    }
    std::sort(days.rbegin(), days.rend());
    return days;
}

std::vector<json> Archive::requests(const std::string &date, const std::string &find,
                                    std::size_t most) const {
    const std::unique_ptr<Day> day = Day::of(role_);
    read_journal(folder_ + "/" + std::string(name_begin) + date,
                 [&](const Entry &entry) { day->apply(entry); });
    const std::vector<std::string> words = words_in(find);
    std::vector<json> found;
    for (const std::string &request : day->requests()) {
        json view = day->view(request);
        if (found.size() < most && has_all(text_of(view, market_, role_), words)) {
            add_values(view, values_, day_of(Moment(std::chrono::milliseconds(view.at("made")))));
            found.push_back(std::move(view));
        }
    }
    return found;
}

} // namespace desk
