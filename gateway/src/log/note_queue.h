// Queues the lines of session notes between the log's seals and the recovery of the sessions.
#ifndef GATEWAY_LOG_NOTE_QUEUE_H
#define GATEWAY_LOG_NOTE_QUEUE_H

#include "base/record_file.h"

#include <cstdint>
#include <filesystem>
#include <map>
#include <memory>
#include <mutex>
#include <optional>
#include <string>
#include <string_view>

namespace gateway {

// A start reads all seals before the venue has given anything, and each note waits for what it
// names. So they stand in an unnamed file, and nothing in memory grows with the day. One thread at
// a time, but for noted(); each call throws std::system_error where the file can't be read or
// written, and std::runtime_error where it was cut off.
class NoteQueue {
  public:
    explicit NoteQueue(const std::filesystem::path &folder);

    // Whole lines, a line feed behind each.
    void put(std::string_view lines);
    // The line that was put first, without its line feed; nothing where none waits.
    std::optional<std::string> front();
    void pop();
    // How many of the venue's messages the notes of a firm name that were put here. Of any thread.
    std::uint32_t noted(const std::string &firm) const;

  private:
    bool read_some();

    const std::filesystem::path folder_;
    std::unique_ptr<TextFile> file_;
    std::uint64_t end_ = 0;  // of what was put,
    std::uint64_t read_ = 0; // of what was read,
    std::string buffer_;     // of which this waits
    std::size_t at_ = 0;     // from here on

    mutable std::mutex mutex_; // over what follows
    std::map<std::string, std::uint32_t> noted_;
};

} // namespace gateway

#endif
