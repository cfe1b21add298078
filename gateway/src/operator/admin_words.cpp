#include "operator/admin_words.h"

#include <charconv>

namespace gateway {

namespace {

constexpr std::string_view version = "1";
constexpr std::string_view empty_word = "%";
constexpr std::string_view digits = "0123456789abcdef";

bool stands_alone(char c) {
    return c > ' ' && c < 0x7f && c != '%';
}

std::string written(const std::string &word) {
    std::string text;
    for (const char c : word) {
        if (stands_alone(c)) {
            text += c;
        } else {
            const auto byte = static_cast<unsigned char>(c);
            text += {'%', digits[byte >> 4], digits[byte & 15]};
        }
    }
    return text.empty() ? std::string(empty_word) : text;
}

// The byte of two digits; nothing where they are none.
std::optional<char> byte_of(std::string_view text) {
    unsigned byte = 0;
    const auto [end, fault] = std::from_chars(text.data(), text.data() + text.size(), byte, 16);
    if (text.size() != 2 || fault != std::errc() || end != text.data() + text.size()) {
        return std::nullopt;
    }
    return static_cast<char>(byte);
}

std::optional<std::string> read(std::string_view text) {
    if (text == empty_word) {
        return "";
    }
    std::string word;
    for (std::size_t at = 0; at < text.size(); ++at) {
        if (stands_alone(text[at])) {
            word += text[at];
            continue;
        }
        const auto byte = text[at] == '%' ? byte_of(text.substr(at + 1, 2)) : std::nullopt;
        if (!byte) {
            return std::nullopt;
        }
        word += *byte;
        at += 2;
    }
    return word.empty() ? std::nullopt : std::optional(word);
}

// Nothing where one of them can't be read.
std::optional<std::vector<std::string>> words_in(std::string_view line) {
    std::vector<std::string> words;
    for (;;) {
        const std::size_t end = line.find(' ');
        auto word = read(line.substr(0, end));
        if (!word) {
            return std::nullopt;
        }
        words.push_back(std::move(*word));
        if (end == std::string_view::npos) {
            return words;
        }
        line.remove_prefix(end + 1);
    }
}

} // namespace

std::string length_of_piece(std::size_t bytes) {
    std::string text(digits_of_length, '0');
    for (std::size_t at = digits_of_length; bytes != 0 && at != 0; bytes >>= 4) {
        text[--at] = digits[bytes & 15];
    }
    return text;
}

std::string line_of(const AdminRequest &request) {
    std::string line = std::string(version) + (request.wants_json ? " json" : " text");
    for (const std::string &word : request.words) {
        line += ' ' + written(word);
    }
    return line + '\n';
}

std::optional<AdminRequest> request_of(std::string_view line) {
    auto words = words_in(line);
    if (!words || words->size() < 3 || (*words)[0] != version ||
        ((*words)[1] != "json" && (*words)[1] != "text")) {
        return std::nullopt;
    }
    AdminRequest request;
    request.wants_json = (*words)[1] == "json";
    request.words.assign(words->begin() + 2, words->end());
    return request;
}

} // namespace gateway
