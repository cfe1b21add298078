#include "log/note_queue.h"

#include "common/frame.h"
#include "log/session_note_line.h"

#include <algorithm>

namespace gateway {

namespace {

// Bytes that are read at once.
constexpr std::uint64_t chunk = 1 << 16;

// A file that has been read to its end is begun anew where it is longer.
constexpr std::uint64_t long_file = 1 << 20;

// FIRM and GIVEN of a note: the fold reads all of it, once it is its turn.
struct GivenInNote {
    std::string_view firm;
    unsigned given = 0;
};

// Nothing where a line has none.
std::optional<GivenInNote> given_in(std::string_view line) {
    constexpr int words_between = 5; // EPOCH KIND NUMBER EXPECTED HAD
    const auto take_word = [&line] {
        const std::string_view word = line.substr(0, line.find(' '));
        line.remove_prefix(std::min(word.size() + 1, line.size()));
        return word;
    };
    const std::string_view firm = take_word();
    for (int count = 0; count < words_between; ++count) {
        take_word();
    }
    const auto given = number_of(take_word());
    return given ? std::optional(GivenInNote{firm, *given}) : std::nullopt;
}

} // namespace

NoteQueue::NoteQueue(const std::filesystem::path &folder)
    : folder_(folder), file_(std::make_unique<TextFile>(folder)) {}

void NoteQueue::put(std::string_view lines) {
    file_->append({lines});
    end_ += lines.size();
    const std::lock_guard lock(mutex_);
    for (const std::string_view line : lines_in(lines)) {
        if (const auto note = given_in(line)) {
            std::uint32_t &noted = noted_[std::string(note->firm)];
            noted = std::max<std::uint32_t>(noted, note->given);
        }
    }
}

std::uint32_t NoteQueue::noted(const std::string &firm) const {
    const std::lock_guard lock(mutex_);
    const auto found = noted_.find(firm);
    return found == noted_.end() ? 0 : found->second;
}

std::optional<std::string> NoteQueue::front() {
    std::size_t end = buffer_.find('\n', at_);
    while (end == std::string::npos && read_some()) {
        end = buffer_.find('\n', at_);
    }
    return end == std::string::npos ? std::nullopt : std::optional(buffer_.substr(at_, end - at_));
}

void NoteQueue::pop() {
    at_ = buffer_.find('\n', at_) + 1;
    if (at_ < buffer_.size() || read_ < end_) {
        return;
    }
    buffer_.clear();
    at_ = 0;
    if (end_ > long_file) {
        file_ = std::make_unique<TextFile>(folder_);
        read_ = end_ = 0;
    }
}

bool NoteQueue::read_some() {
    const std::string some = file_->at(read_, std::min(chunk, end_ - read_));
    read_ += some.size();
    buffer_ = buffer_.substr(at_) + some;
    at_ = 0;
    return !some.empty();
}

} // namespace gateway
