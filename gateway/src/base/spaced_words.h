// Puts words and numbers behind one another, with a space behind each.
#ifndef GATEWAY_BASE_SPACED_WORDS_H
#define GATEWAY_BASE_SPACED_WORDS_H

#include <cstddef>
#include <string>
#include <string_view>
#include <type_traits>
#include <utility>

#include <fmt/format.h>

namespace gateway {

// What a format would write, of texts that are made for each entry or message of a day.
class SpacedWords {
  public:
    // Room for so many bytes.
    explicit SpacedWords(std::size_t room) { text_.reserve(room); }

    SpacedWords &add(std::string_view word) {
        text_.append(word) += ' ';
        return *this;
    }
    SpacedWords &add(char letter) { return add(std::string_view(&letter, 1)); }
    template <typename Number>
    requires std::is_unsigned_v<Number> SpacedWords &add(Number number) {
        const fmt::format_int digits(number);
        return add(std::string_view(digits.data(), digits.size()));
    }

    // All of it, in whose last space's place this byte stands, and a text behind that.
    std::string with(char end, std::string_view behind) && {
        text_.back() = end;
        return std::move(text_.append(behind));
    }
    // All of it, without the last space.
    std::string text() && {
        text_.pop_back();
        return std::move(text_);
    }

  private:
    std::string text_;
};

} // namespace gateway

#endif
