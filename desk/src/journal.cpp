#include "journal.h"

#include "common/descriptor.h"
#include "safe_names.h"

#include <array>
#include <charconv>
#include <cstdint>
#include <cstdio>
#include <cstdlib>
#include <cstring>
#include <optional>
#include <stdexcept>
#include <string_view>

#include <boost/crc.hpp>
#include <fcntl.h>
#include <sys/stat.h>
#include <unistd.h>

namespace desk {

namespace {

using gateway::Descriptor;

constexpr off_t most_read_bytes = 1 << 30; // of a day that is over

std::uint32_t check_of(std::string_view bytes) {
    boost::crc_32_type check;
    check.process_bytes(bytes.data(), bytes.size());
    return check.checksum();
}

[[noreturn]] void end_process(const std::string &path, const char *what) {
    std::fprintf(stderr, "%s: %s: %s. The desk ends.\n", path.c_str(), what, std::strerror(errno));
    std::_Exit(1);
}

// Takes a number and what follows it off a text.
template <typename Number> std::optional<Number> take_number(std::string_view &text, char behind) {
    Number number{};
    const auto [end, fault] = std::from_chars(text.data(), text.data() + text.size(), number);
    if (fault != std::errc() || end == text.data() + text.size() || *end != behind) {
        return {};
    }
    text.remove_prefix(static_cast<std::size_t>(end - text.data()) + 1);
    return number;
}

// Takes the first record off a text; nothing where it is cut off or changed.
std::optional<Entry> take_entry(std::string_view &text) {
    std::string_view rest = text;
    const auto check = take_number<std::uint32_t>(rest, ' ');
    const std::string_view checked = rest;
    if (!check || rest.size() < 2 || rest[1] != ' ') {
        return {};
    }
    const auto kind = static_cast<Entry::Kind>(rest[0]);
    rest.remove_prefix(2);
    const auto moment = take_number<std::int64_t>(rest, ' ');
    const auto length = moment ? take_number<std::size_t>(rest, ' ') : std::nullopt;
    if (!length || *length >= rest.size() || rest[*length] != '\n') {
        return {};
    }
    const std::size_t whole = checked.size() - rest.size() + *length;
    if (check_of(checked.substr(0, whole)) != *check) {
        return {};
    }
    text = rest.substr(*length + 1);
    return Entry{kind, Moment(std::chrono::milliseconds(*moment)),
                 std::string(rest.substr(0, *length))};
}

// Hands over the entries, and says how many bytes they have.
std::size_t read_entries(const std::string &bytes, const std::function<void(const Entry &)> &each) {
    std::string_view rest = bytes;
    while (const std::optional<Entry> entry = take_entry(rest)) {
        each(*entry);
    }
    return bytes.size() - rest.size();
}

[[noreturn]] void fail(const std::string &path, const char *what) {
    throw std::runtime_error(path + what + std::strerror(errno));
}

// All that a file has. What can't be read is no end of it: it would be cut off.
std::string bytes_of(int file, const std::string &path) {
    std::string bytes;
    std::array<char, 65536> some{};
    for (;;) {
        const ssize_t count = ::read(file, some.data(), some.size());
        if (count < 0 && errno != EINTR) {
            fail(path, " can't be read: ");
        }
        if (count == 0) {
            return bytes;
        }
        bytes.append(some.data(), count < 0 ? 0 : static_cast<std::size_t>(count));
    }
}

// Whether all was written; errno says why not.
bool write_all(int file, std::string_view bytes) {
    while (!bytes.empty()) {
        const ssize_t written = ::write(file, bytes.data(), bytes.size());
        if (written < 0 && errno != EINTR) {
            return false;
        }
        bytes.remove_prefix(written < 0 ? 0 : static_cast<std::size_t>(written));
    }
    return true;
}

// What is no whole record, or stands behind one that is none, is kept beside the journal: it may
// be more than the end of the last one. It is safe there before it is cut off here.
void put_aside(const std::string &path, std::string_view rest) {
    if (rest.empty()) {
        return;
    }
    const std::string aside = path + ".cut";
    const Descriptor file(::open(aside.c_str(), O_WRONLY | O_CREAT | O_APPEND | O_CLOEXEC, 0600));
    if (file.number() < 0 || !write_all(file.number(), rest) || ::fsync(file.number()) != 0 ||
        !synchronise_names(aside)) {
        fail(aside, " can't be written: ");
    }
    std::fprintf(stderr, "%s: its last %zu bytes are no whole record, and stand in %s\n",
                 path.c_str(), rest.size(), aside.c_str());
}

} // namespace

Journal::Journal(const std::string &path, const std::function<void(const Entry &)> &each)
    : path_(path), file_(::open(path.c_str(), O_RDWR | O_CREAT | O_APPEND | O_CLOEXEC, 0600)) {
    if (file_.number() < 0 || !synchronise_names(path)) {
        fail(path, " can't be opened: ");
    }
    const std::string bytes = bytes_of(file_.number(), path);
    const std::size_t good = read_entries(bytes, each);
    put_aside(path, std::string_view(bytes).substr(good));
    if (::ftruncate(file_.number(), static_cast<off_t>(good)) != 0) {
        fail(path, " can't be cut: ");
    }
}

void read_journal(const std::string &path, const std::function<void(const Entry &)> &each) {
    const Descriptor file(::open(path.c_str(), O_RDONLY | O_NOFOLLOW | O_CLOEXEC));
    struct stat facts {};
    if (file.number() < 0 || ::fstat(file.number(), &facts) != 0) {
        fail(path, " can't be opened: ");
    }
    if (!S_ISREG(facts.st_mode) || facts.st_size > most_read_bytes) {
        throw std::runtime_error(path + " is no journal, or too long to be shown");
    }
    read_entries(bytes_of(file.number(), path), each);
}

void Journal::write(const Entry &entry) {
    std::string checked{static_cast<char>(entry.kind), ' '};
    checked += std::to_string(milliseconds_of(entry.moment)) + ' ';
    checked += std::to_string(entry.bytes.size()) + ' ' + entry.bytes;
    const std::string record = std::to_string(check_of(checked)) + ' ' + checked + '\n';
    if (!write_all(file_.number(), record)) {
        end_process(path_, "can't be written");
    }
}

void Journal::synchronise() {
    if (::fdatasync(file_.number()) != 0) {
        end_process(path_, "can't be synchronised");
    }
}

} // namespace desk
