#include "config/signed_report.h"

#include <algorithm>

namespace gateway {

namespace {

constexpr std::string_view form = "mireseason-report 1 ";
constexpr std::size_t longest_line = 512;

std::string_view take_word(std::string_view &text) {
    const std::size_t end = std::min(text.find(' '), text.size());
    const std::string_view word = text.substr(0, end);
    text.remove_prefix(std::min(end + 1, text.size()));
    return word;
}

std::optional<Signature> signature_of(std::string_view digits) {
    const auto first = digest_of(digits.substr(0, digits.size() / 2));
    const auto second = digest_of(digits.substr(digits.size() / 2));
    if (!first || !second) {
        return std::nullopt;
    }
    Signature signature{};
    std::ranges::copy(*second, std::ranges::copy(*first, signature.begin()).out);
    return signature;
}

bool is_day(std::string_view text) {
    return text.size() == 8 &&
           std::ranges::all_of(text, [](char c) { return c >= '0' && c <= '9'; });
}

} // namespace

std::string_view SignedReport::what_is_signed() const {
    return std::string_view(line).substr(0, line.rfind(' '));
}

std::optional<SignedReport> signed_report_of(std::string_view line) {
    if (!line.starts_with(form) || line.size() > longest_line) {
        return std::nullopt;
    }
    SignedReport read;
    read.line = line;
    line.remove_prefix(form.size());
    read.firm = take_word(line);
    read.role = take_word(line);
    const std::string_view outcome = take_word(line);
    read.has_passed = outcome == "passed";
    read.until = take_word(line);
    const auto formats = digest_of(take_word(line));
    const auto report = digest_of(take_word(line));
    const auto signature = signature_of(line);
    const bool is_role = read.role == "dealer" || read.role == "investor";
    if (read.firm.empty() || !is_role || (!read.has_passed && outcome != "failed") ||
        !is_day(read.until) || !formats || !report || !signature) {
        return std::nullopt;
    }
    read.formats = *formats;
    read.report = *report;
    read.signature = *signature;
    return read;
}

} // namespace gateway
