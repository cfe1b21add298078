#include "base/nearest_word.h"

#include <algorithm>
#include <cstddef>
#include <vector>

namespace gateway {

namespace {

// Words that are longer are nobody's slip of the pen.
constexpr std::size_t longest_word = 40;

using Row = std::vector<std::size_t>;

// The next row of the table of distances: of the first letters of `left`, up to the one at `at`, to
// each beginning of `right`.
Row next_row(std::string_view left, std::string_view right, std::size_t at, const Row &before,
             const Row &last) {
    Row row(right.size() + 1, at + 1);
    for (std::size_t to = 0; to < right.size(); ++to) {
        const std::size_t changed = last[to] + (left[at] == right[to] ? 0 : 1);
        row[to + 1] = std::min({last[to + 1] + 1, row[to] + 1, changed});
        const bool turned =
            at > 0 && to > 0 && left[at] == right[to - 1] && left[at - 1] == right[to];
        if (turned) {
            row[to + 1] = std::min(row[to + 1], before[to - 1] + 1);
        }
    }
    return row;
}

std::size_t distance(std::string_view left, std::string_view right) {
    Row before;
    Row last(right.size() + 1);
    for (std::size_t to = 0; to < last.size(); ++to) {
        last[to] = to;
    }
    for (std::size_t at = 0; at < left.size(); ++at) {
        Row row = next_row(left, right, at, before, last);
        before = std::move(last);
        last = std::move(row);
    }
    return last.back();
}

} // namespace

std::optional<std::string_view> nearest_word(std::string_view written,
                                             std::span<const std::string_view> words) {
    std::optional<std::string_view> nearest;
    std::size_t least = longest_word;
    for (const std::string_view word : words) {
        const std::size_t letters =
            written.size() > longest_word ? longest_word : distance(written, word);
        if (letters < least && letters * 3 <= word.size()) {
            nearest = word;
            least = letters;
        }
    }
    return nearest;
}

} // namespace gateway
