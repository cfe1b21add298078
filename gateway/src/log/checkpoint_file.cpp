#include "log/checkpoint_file.h"

#include "base/private_file.h"

#include <algorithm>
#include <charconv>
#include <stdexcept>
#include <string_view>
#include <utility>

#include <fmt/format.h>

namespace gateway {

namespace {

// What a line has behind its word, in a text of lines; nothing where the next line is another.
std::optional<std::string_view> take(std::string_view &text, std::string_view word) {
    const std::size_t end = text.find('\n');
    if (end == std::string_view::npos || !text.starts_with(word) || word.size() >= end ||
        text[word.size()] != ' ') {
        return std::nullopt;
    }
    const std::string_view value = text.substr(word.size() + 1, end - word.size() - 1);
    text.remove_prefix(end + 1);
    return value;
}

std::optional<std::uint32_t> number_in(std::string_view text) {
    std::uint32_t number = 0;
    const auto [end, fault] = std::from_chars(text.data(), text.data() + text.size(), number);
    const bool is_number = fault == std::errc() && end == text.data() + text.size();
    return is_number ? std::optional(number) : std::nullopt;
}

// `WORD NUMBER`
std::optional<std::uint32_t> take_number(std::string_view &text, std::string_view word) {
    const auto value = take(text, word);
    return value ? number_in(*value) : std::nullopt;
}

// `NUMBER HEX`
bool read_place(std::optional<std::string_view> value, std::uint32_t &place, Digest &hash) {
    const std::size_t space = value ? value->find(' ') : std::string_view::npos;
    if (space == std::string_view::npos) {
        return false;
    }
    const std::string_view text = value->substr(0, space);
    const auto number = text == "-1" ? std::optional(before_day) : number_in(text);
    const auto digest = digest_of(value->substr(space + 1));
    place = number.value_or(0);
    hash = digest.value_or(Digest{});
    return number && digest;
}

// Two halves of 64 digits.
bool read_signature(std::optional<std::string_view> value, Signature &signature) {
    const auto first = value ? digest_of(value->substr(0, 64)) : std::nullopt;
    const auto second = value && value->size() > 64 ? digest_of(value->substr(64)) : std::nullopt;
    if (!first || !second) {
        return false;
    }
    std::copy(first->begin(), first->end(), signature.begin());
    std::copy(second->begin(), second->end(), signature.begin() + 32);
    return true;
}

std::optional<Checkpoint> checkpoint_of(std::string_view text) {
    Checkpoint found;
    take(text, "mireseason log");
    for (const char *word : {"venue", "day", "configuration"}) {
        take(text, word);
    }
    const auto term = take_number(text, "term");
    if (!term || !read_place(take(text, "entry"), found.at.place, found.at.hash) ||
        !read_place(take(text, "connection"), found.at.event, found.at.event_hash) ||
        !read_place(take(text, "seal"), found.at.seal, found.at.notes)) {
        return std::nullopt;
    }
    const auto number = take_number(text, "checkpoint");
    if (!number || !read_signature(take(text, "before"), found.before)) {
        return std::nullopt;
    }
    found.at.term = *term;
    found.number = *number;
    found.is_end = take(text, "end") == "yes";
    return read_signature(take(text, "signature"), found.signature) ? std::optional(found)
                                                                    : std::nullopt;
}

} // namespace

std::filesystem::path checkpoint_path(const std::filesystem::path &folder, const std::string &venue,
                                      std::string_view date) {
    return folder / fmt::format("{}-{}.checkpoint", venue.empty() ? "day" : venue, date);
}

bool says_that_it_goes_on(const std::filesystem::path &file) {
    return std::filesystem::exists(file) &&
           read_public(file).find("\nend no\n") != std::string::npos;
}

CheckpointFile::CheckpointFile(const std::filesystem::path &folder, Sealer sealer)
    : sealer_(std::move(sealer)),
      path_(checkpoint_path(folder, sealer_.log().venue, sealer_.log().date)) {
    std::filesystem::create_directories(folder);
}

CheckpointFile CheckpointFile::before_opening(const std::filesystem::path &folder, Sealer sealer) {
    CheckpointFile file(folder, std::move(sealer));
    file.path_.replace_extension(early_ending);
    return file;
}

std::optional<Checkpoint> CheckpointFile::read() const {
    if (!std::filesystem::exists(path_)) {
        return std::nullopt;
    }
    const std::string text = read_public(path_);
    const auto checkpoint = checkpoint_of(text);
    // The whole text follows from the log and the position: another one has another signature, or
    // is none that a gateway writes.
    if (!checkpoint || text_of_file(*checkpoint) != text || !sealer_.is_signed(*checkpoint)) {
        throw std::runtime_error(fmt::format(
            "{} is no checkpoint of this log that one of its gateways signed", path_.string()));
    }
    return checkpoint;
}

std::string CheckpointFile::text_of_file(const Checkpoint &checkpoint) const {
    return fmt::format("{}signature {}\n", text_of(sealer_.log(), checkpoint),
                       text_of(checkpoint.signature));
}

void CheckpointFile::write(const Checkpoint &checkpoint) const {
    replace_file(path_, text_of_file(checkpoint));
}

void CheckpointFile::remove() const {
    std::filesystem::remove(path_);
}

} // namespace gateway
