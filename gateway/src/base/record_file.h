// Files without a name in their folder: bytes, or records of one size, in such a file.
#ifndef GATEWAY_BASE_RECORD_FILE_H
#define GATEWAY_BASE_RECORD_FILE_H

#include "common/descriptor.h"

#include <algorithm>
#include <cstddef>
#include <cstdint>
#include <filesystem>
#include <initializer_list>
#include <mutex>
#include <stdexcept>
#include <string>
#include <string_view>
#include <type_traits>
#include <vector>

namespace gateway {

// A file in a folder that has no name: nobody else can open it, and it ends with its descriptor.
// Throws std::system_error that names the folder.
Descriptor open_unnamed(const std::filesystem::path &folder);
// Reads as many bytes as there are from a place on, `length` at most; returns how many. Throws
// std::system_error.
std::size_t read_at(const Descriptor &file, std::uint64_t place, void *bytes, std::size_t length);
// Writes all of them. Throws std::system_error.
void write_at(const Descriptor &file, std::uint64_t place, const void *bytes, std::size_t length);

// Texts, each behind the one before; any thread. The last of them are kept in memory, and written
// together: a call of the system for each would take longer than what it is for.
class TextFile {
  public:
    explicit TextFile(const std::filesystem::path &folder) : file_(open_unnamed(folder)) {}

    // These, one behind the other: where the first begins.
    std::uint64_t append(std::initializer_list<std::string_view> texts);
    // Throws std::runtime_error if there are fewer bytes.
    std::string at(std::uint64_t begin, std::size_t length) const;

  private:
    const Descriptor file_;
    mutable std::mutex mutex_;
    std::uint64_t written_ = 0;
    std::string waiting_; // behind what is written
};

// Records of one size by their numbers. One that was never put is a Record{}; where one is gone
// that was, what reads it throws std::runtime_error. One thread at a time. Those that were put
// last, one behind the other, are kept in memory likewise.
template <typename Record> class RecordFile {
    static_assert(std::is_trivially_copyable_v<Record>);

  public:
    explicit RecordFile(const std::filesystem::path &folder) : file_(open_unnamed(folder)) {}

    void put(std::uint32_t number, const Record &record) {
        if (is_waiting(number)) {
            waiting_[number - written_] = record;
        } else if (number < written_) {
            write(number, &record, 1);
        } else {
            if (number != written_ + waiting_.size() || waiting_.size() == most_waiting) {
                write_waiting();
                written_ = number;
            }
            waiting_.push_back(record);
        }
    }
    Record at(std::uint32_t number) const {
        if (is_waiting(number)) {
            return waiting_[number - written_];
        }
        Record record{};
        read(number, &record, 1);
        return record;
    }
    // Those from a number on, `count` at most: fewer at the end of the file.
    std::vector<Record> some(std::uint32_t from, std::size_t count) const {
        const std::size_t written = from < written_ ? std::min(count, written_ - from) : 0;
        std::vector<Record> records(written);
        read(from, records.data(), written);
        while (records.size() < count && is_waiting(from + records.size())) {
            records.push_back(waiting_[from + records.size() - written_]);
        }
        return records;
    }

  private:
    static constexpr std::size_t most_waiting = 64;

    static std::uint64_t place_of(std::uint32_t number) { return number * sizeof(Record); }
    bool is_waiting(std::size_t number) const {
        return number >= written_ && number - written_ < waiting_.size();
    }
    // What was never put may stand behind the end of the file, and nothing else may.
    void read(std::uint32_t number, Record *records, std::size_t count) const {
        const std::uint64_t place = place_of(number);
        const std::uint64_t there = end_ - std::min(place, end_);
        const std::size_t wanted = count * sizeof(Record);
        if (read_at(file_, place, records, wanted) < std::min<std::uint64_t>(wanted, there)) {
            throw std::runtime_error("the spool was cut off");
        }
    }
    void write(std::uint32_t number, const Record *records, std::size_t count) {
        write_at(file_, place_of(number), records, count * sizeof(Record));
        end_ = std::max(end_, place_of(number) + count * sizeof(Record));
    }
    void write_waiting() {
        write(static_cast<std::uint32_t>(written_), waiting_.data(), waiting_.size());
        written_ += waiting_.size();
        waiting_.clear();
    }

    Descriptor file_;
    std::uint64_t end_ = 0;   // of the file
    std::size_t written_ = 0; // all in front of this number that were put
    std::vector<Record> waiting_;
};

} // namespace gateway

#endif
