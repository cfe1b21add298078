// What an operator's command answers, for people and for programs.
#ifndef GATEWAY_OPERATOR_ADMIN_ANSWER_H
#define GATEWAY_OPERATOR_ADMIN_ANSWER_H

#include <cstdint>
#include <stdexcept>
#include <string>
#include <string_view>
#include <utility>
#include <variant>
#include <vector>

namespace gateway {

// Why a command is not done.
class AdminFault : public std::runtime_error {
  public:
    using std::runtime_error::runtime_error;
};

// A sentence, or rows of fields, or both. All rows of an answer have the same fields.
struct AdminAnswer {
    using Value = std::variant<std::string, std::uint64_t, bool>;
    using Row = std::vector<std::pair<std::string, Value>>;

    std::string said;
    std::vector<Row> rows;
};

// For people: the sentence, and a table; one row alone is a list of its fields.
std::string text_of(const AdminAnswer &answer);
// {"said": "..", "rows": [{..}, ..]}, in one line.
std::string json_of(const AdminAnswer &answer);
// {"error": ".."}
std::string json_of_error(std::string_view what);

} // namespace gateway

#endif
