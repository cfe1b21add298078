#include "common/toml_bounds.h"

#include <algorithm>

namespace gateway {

namespace {

// Goes through a text once. What stands in a string or a comment is neither a bracket nor a dot.
class Scan {
  public:
    explicit Scan(std::string_view text) : rest_(text) {}

    // The line of what is too deep; nothing where nothing is.
    std::optional<std::size_t> line_of_excess() {
        while (!rest_.empty()) {
            if (rest_.front() == '"' || rest_.front() == '\'') {
                skip_string(rest_.front());
            } else if (rest_.front() == '#') {
                skip(std::min(rest_.find('\n'), rest_.size()));
            } else {
                count(rest_.front());
                skip(1);
            }
            if (brackets_ > deepest_toml || dots_ >= deepest_toml) {
                return line_;
            }
        }
        return std::nullopt;
    }

  private:
    void skip(std::size_t count) {
        for (const char c : rest_.substr(0, count)) {
            line_ += c == '\n' ? 1 : 0;
        }
        rest_.remove_prefix(count);
    }

    // From its opening quotation marks to the closing ones, or to the end of the text. One of a
    // single line ends with that.
    void skip_string(char quote) {
        const std::string three(3, quote);
        const bool is_long = rest_.starts_with(three);
        const std::string_view closing = is_long ? std::string_view(three) : rest_.substr(0, 1);
        skip(closing.size());
        while (!rest_.empty() && !rest_.starts_with(closing)) {
            if (!is_long && rest_.front() == '\n') {
                return;
            }
            const bool is_escape = quote == '"' && rest_.front() == '\\' && rest_.size() > 1;
            skip(is_escape ? 2 : 1);
        }
        skip(std::min(closing.size(), rest_.size()));
        // The last two characters of a long text may be quotation marks themselves.
        for (int more = 0; is_long && more < 2 && rest_.starts_with(quote); ++more) {
            skip(1);
        }
    }

    void count(char c) {
        switch (c) {
        case '[':
        case '{':
            ++brackets_;
            dots_ = 0;
            break;
        case ']':
        case '}':
            brackets_ -= brackets_ > 0 ? 1 : 0;
            dots_ = 0;
            break;
        case '.':
            ++dots_;
            break;
        case '=':
        case ',':
        case '\n':
            dots_ = 0;
            break;
        default:
            break;
        }
    }

    std::string_view rest_;
    std::size_t line_ = 1;
    std::size_t brackets_ = 0;
    std::size_t dots_ = 0; // of the key, or the number, that goes on
};

} // namespace

std::optional<TomlExcess> excess_of(std::string_view text) {
    if (text.size() > longest_toml) {
        return TomlExcess{1, "the file has more than " + std::to_string(longest_toml) + " bytes"};
    }
    if (const auto line = Scan(text).line_of_excess()) {
        return TomlExcess{*line, "it is more than " + std::to_string(deepest_toml) + " deep"};
    }
    return std::nullopt;
}

} // namespace gateway
