#include "operator/admin_answer.h"

#include <algorithm>
#include <cstddef>

#include <fmt/format.h>

namespace gateway {

namespace {

std::string text_of(const AdminAnswer::Value &value) {
    if (const auto *text = std::get_if<std::string>(&value)) {
        return text->empty() ? "-" : *text;
    }
    if (const auto *number = std::get_if<std::uint64_t>(&value)) {
        return fmt::format("{}", *number);
    }
    return std::get<bool>(value) ? "yes" : "no";
}

std::string list_of(const AdminAnswer::Row &row) {
    std::size_t width = 0;
    for (const auto &[name, value] : row) {
        width = std::max(width, name.size());
    }
    std::string text;
    for (const auto &[name, value] : row) {
        text += fmt::format("{:<{}}  {}\n", name, width, text_of(value));
    }
    return text;
}

std::vector<std::size_t> widths_of(const std::vector<AdminAnswer::Row> &rows) {
    std::vector<std::size_t> widths;
    for (std::size_t at = 0; at < rows.front().size(); ++at) {
        std::size_t width = rows.front()[at].first.size();
        for (const AdminAnswer::Row &row : rows) {
            width = std::max(width, text_of(row[at].second).size());
        }
        widths.push_back(width);
    }
    return widths;
}

// Without spaces at its end.
std::string line_of(const std::vector<std::string> &cells, const std::vector<std::size_t> &widths) {
    std::string line;
    for (std::size_t at = 0; at < cells.size(); ++at) {
        line += fmt::format("{:<{}}  ", cells[at], widths[at]);
    }
    line.erase(line.find_last_not_of(' ') + 1);
    return line + "\n";
}

std::string table_of(const std::vector<AdminAnswer::Row> &rows) {
    const std::vector<std::size_t> widths = widths_of(rows);
    std::vector<std::string> cells;
    for (const auto &[name, value] : rows.front()) {
        cells.push_back(name);
    }
    std::string text = line_of(cells, widths);
    for (const AdminAnswer::Row &row : rows) {
        cells.clear();
        std::transform(row.begin(), row.end(), std::back_inserter(cells),
                       [](const auto &field) { return text_of(field.second); });
        text += line_of(cells, widths);
    }
    return text;
}

// A text of JSON. Whatever its bytes are, it is one.
std::string text_in_json(std::string_view text) {
    std::string json = "\"";
    for (const char c : text) {
        const auto byte = static_cast<unsigned char>(c);
        if (c == '"' || c == '\\') {
            json += {'\\', c};
        } else if (byte < ' ' || byte >= 0x7f) {
            json += fmt::format("\\u{:04x}", byte);
        } else {
            json += c;
        }
    }
    return json + "\"";
}

std::string json_of(const AdminAnswer::Value &value) {
    if (const auto *text = std::get_if<std::string>(&value)) {
        return text_in_json(*text);
    }
    if (const auto *number = std::get_if<std::uint64_t>(&value)) {
        return fmt::format("{}", *number);
    }
    return std::get<bool>(value) ? "true" : "false";
}

std::string json_of(const AdminAnswer::Row &row) {
    std::string json;
    for (const auto &[name, value] : row) {
        json +=
            fmt::format("{}{}: {}", json.empty() ? "" : ", ", text_in_json(name), json_of(value));
    }
    return "{" + json + "}";
}

} // namespace

std::string text_of(const AdminAnswer &answer) {
    std::string text = answer.said.empty() ? "" : answer.said + "\n";
    if (answer.rows.size() == 1) {
        return text + list_of(answer.rows.front());
    }
    return answer.rows.empty() ? text : text + table_of(answer.rows);
}

std::string json_of(const AdminAnswer &answer) {
    std::string rows;
    for (const AdminAnswer::Row &row : answer.rows) {
        rows += (rows.empty() ? "" : ", ") + json_of(row);
    }
    return fmt::format("{{\"said\": {}, \"rows\": [{}]}}\n", text_in_json(answer.said), rows);
}

std::string json_of_error(std::string_view what) {
    return fmt::format("{{\"error\": {}}}\n", text_in_json(what));
}

} // namespace gateway
