#include "base/private_file.h"

#include "common/descriptor.h"

#include <array>
#include <stdexcept>
#include <string_view>
#include <system_error>

#include <fcntl.h>
#include <fmt/format.h>
#include <sys/stat.h>

namespace gateway {

namespace {

namespace fs = std::filesystem;

// What nobody but the owner, and for reading the group, may do.
constexpr mode_t forbidden = S_IWGRP | S_IRWXO;

[[noreturn]] void fail(const fs::path &path) {
    throw std::runtime_error(
        fmt::format("{}: {}", path.string(), std::generic_category().message(errno)));
}

void require_private(mode_t mode, const fs::path &path) {
    if ((mode & forbidden) != 0) {
        throw std::runtime_error(fmt::format(
            "{}: has the mode {:04o}: give it 0640 or 0600, so that its group can't write it and "
            "others can't read it",
            path.string(), mode & 07777));
    }
}

// Whatever stands there, it is opened without a wait; and what has no end is not read.
Descriptor open_file(const fs::path &path) {
    Descriptor file(::open(path.c_str(), O_RDONLY | O_CLOEXEC | O_NONBLOCK));
    struct stat found {};
    if (file.number() < 0 || ::fstat(file.number(), &found) != 0) {
        fail(path);
    }
    if (!S_ISREG(found.st_mode)) {
        throw std::runtime_error(fmt::format("{}: is no file", path.string()));
    }
    return file;
}

std::string read_all(const Descriptor &file, const fs::path &path) {
    std::string text;
    std::array<char, 4096> bytes{};
    for (;;) {
        const ssize_t count = ::read(file.number(), bytes.data(), bytes.size());
        if (count < 0) {
            fail(path);
        }
        if (count == 0) {
            return text;
        }
        text.append(bytes.data(), static_cast<std::size_t>(count));
    }
}

void write_all(const Descriptor &file, const fs::path &path, std::string_view text) {
    while (!text.empty()) {
        const ssize_t count = ::write(file.number(), text.data(), text.size());
        if (count < 0) {
            fail(path);
        }
        text.remove_prefix(static_cast<std::size_t>(count));
    }
    if (::fsync(file.number()) != 0) {
        fail(path);
    }
}

// The names in a folder are on disk when it returns.
void synchronise_folder(const fs::path &path) {
    const fs::path folder = path.has_parent_path() ? path.parent_path() : fs::path(".");
    const Descriptor opened(::open(folder.c_str(), O_RDONLY | O_DIRECTORY | O_CLOEXEC));
    if (opened.number() < 0 || ::fsync(opened.number()) != 0) {
        fail(folder);
    }
}

} // namespace

std::string read_private(const fs::path &path) {
    const Descriptor file = open_file(path);
    struct stat found {};
    if (::fstat(file.number(), &found) != 0) {
        fail(path);
    }
    require_private(found.st_mode, path);
    return read_all(file, path);
}

void check_private(const fs::path &path) {
    struct stat found {};
    if (!path.empty() && ::stat(path.c_str(), &found) == 0) {
        require_private(found.st_mode, path);
    }
}

void make_files_private() {
    ::umask(::umask(0) | forbidden);
}

std::string read_public(const fs::path &path) {
    return read_all(open_file(path), path);
}

void write_new(const fs::path &path, const std::string &text, unsigned mode) {
    const Descriptor file(
        ::open(path.c_str(), O_WRONLY | O_CREAT | O_EXCL | O_CLOEXEC, static_cast<mode_t>(mode)));
    if (file.number() < 0) {
        fail(path);
    }
    write_all(file, path, text);
    synchronise_folder(path);
}

void replace_file(const fs::path &path, const std::string &text) {
    const fs::path other = path.string() + ".new";
    {
        const Descriptor file(
            ::open(other.c_str(), O_WRONLY | O_CREAT | O_TRUNC | O_CLOEXEC, 0640));
        if (file.number() < 0) {
            fail(other);
        }
        write_all(file, other, text);
    }
    if (::rename(other.c_str(), path.c_str()) != 0) {
        fail(path);
    }
    synchronise_folder(path);
}

} // namespace gateway
