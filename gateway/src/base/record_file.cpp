#include "base/record_file.h"

#include <algorithm>
#include <cerrno>
#include <cstdlib>
#include <stdexcept>
#include <string>
#include <system_error>

#include <fcntl.h>
#include <unistd.h>

namespace gateway {

namespace {

[[noreturn]] void fail(const std::string &what) {
    throw std::system_error(errno, std::generic_category(), what);
}

// Bytes of a TextFile that are written together.
constexpr std::size_t chunk = 1 << 16;

} // namespace

Descriptor open_unnamed(const std::filesystem::path &folder) {
    std::string name = (folder / ".spool-XXXXXX").string();
    Descriptor file(::mkostemp(name.data(), O_CLOEXEC));
    if (file.number() < 0 || ::unlink(name.c_str()) != 0) {
        fail("the spool in " + folder.string());
    }
    return file;
}

std::size_t read_at(const Descriptor &file, std::uint64_t place, void *bytes, std::size_t length) {
    std::size_t done = 0;
    while (done < length) {
        const ::ssize_t some = ::pread(file.number(), static_cast<char *>(bytes) + done,
                                       length - done, static_cast<::off_t>(place + done));
        if (some < 0 && errno != EINTR) {
            fail("the spool can't be read");
        }
        if (some == 0) {
            break;
        }
        done += some > 0 ? static_cast<std::size_t>(some) : 0;
    }
    return done;
}

void write_at(const Descriptor &file, std::uint64_t place, const void *bytes, std::size_t length) {
    std::size_t done = 0;
    while (done < length) {
        const ::ssize_t some = ::pwrite(file.number(), static_cast<const char *>(bytes) + done,
                                        length - done, static_cast<::off_t>(place + done));
        if (some < 0 && errno != EINTR) {
            fail("the spool can't be written");
        }
        done += some > 0 ? static_cast<std::size_t>(some) : 0;
    }
}

std::uint64_t TextFile::append(std::initializer_list<std::string_view> texts) {
    const std::lock_guard lock(mutex_);
    const std::uint64_t begin = written_ + waiting_.size();
    for (const std::string_view text : texts) {
        waiting_.append(text);
    }
    if (waiting_.size() >= chunk) {
        write_at(file_, written_, waiting_.data(), waiting_.size());
        written_ += waiting_.size();
        waiting_.clear();
    }
    return begin;
}

// What is written stays as it is, and its disk may take its time: nobody waits for that.
std::string TextFile::at(std::uint64_t begin, std::size_t length) const {
    std::string text(length, '\0');
    std::uint64_t written = 0;
    std::size_t found = 0;
    {
        const std::lock_guard lock(mutex_);
        written = written_;
        const std::uint64_t from = std::max(begin, written_);
        if (begin + length > from) {
            found = waiting_.copy(text.data() + (from - begin), begin + length - from,
                                  std::min<std::uint64_t>(from - written_, waiting_.size()));
        }
    }
    if (begin < written) {
        found +=
            read_at(file_, begin, text.data(), std::min<std::uint64_t>(length, written - begin));
    }
    if (found != length) {
        throw std::runtime_error("the spool was cut off");
    }
    return text;
}

} // namespace gateway
