#include "base/file_copy.h"

#include "common/descriptor.h"

#include <memory>
#include <stdexcept>
#include <string_view>
#include <system_error>
#include <vector>

#include <fcntl.h>
#include <fmt/format.h>
#include <openssl/evp.h>
#include <unistd.h>

namespace gateway {

namespace {

namespace fs = std::filesystem;

constexpr std::size_t piece = std::size_t{1} << 20;

[[noreturn]] void fail(const fs::path &path) {
    throw std::runtime_error(
        fmt::format("{}: {}", path.string(), std::generic_category().message(errno)));
}

class Summing {
  public:
    Summing() : context_(EVP_MD_CTX_new(), EVP_MD_CTX_free) {
        check(context_ && EVP_DigestInit_ex(context_.get(), EVP_sha256(), nullptr) == 1);
    }

    void add(std::string_view bytes) {
        check(EVP_DigestUpdate(context_.get(), bytes.data(), bytes.size()) == 1);
    }

    Digest sum() {
        Digest digest{};
        check(EVP_DigestFinal_ex(context_.get(), digest.data(), nullptr) == 1);
        return digest;
    }

  private:
    static void check(bool done) {
        if (!done) {
            throw std::runtime_error("SHA-256 was refused");
        }
    }

    std::unique_ptr<EVP_MD_CTX, decltype(&EVP_MD_CTX_free)> context_;
};

Descriptor opened(const fs::path &path, int flags, unsigned mode = 0) {
    Descriptor file(::open(path.c_str(), flags | O_CLOEXEC, static_cast<mode_t>(mode)));
    if (file.number() < 0) {
        fail(path);
    }
    return file;
}

void write_all(const Descriptor &file, std::string_view bytes, const fs::path &path) {
    while (!bytes.empty()) {
        const ssize_t count = ::write(file.number(), bytes.data(), bytes.size());
        if (count < 0) {
            fail(path);
        }
        bytes.remove_prefix(static_cast<std::size_t>(count));
    }
}

// Hands each piece of a file on, and sums them all.
template <typename Taker>
Digest read_pieces(const fs::path &path, const std::stop_token &stop, Taker take) {
    const Descriptor file = opened(path, O_RDONLY);
    std::vector<char> room(piece);
    Summing summing;
    for (;;) {
        if (stop.stop_requested()) {
            throw std::runtime_error("the gateway stops");
        }
        const ssize_t count = ::read(file.number(), room.data(), room.size());
        if (count < 0) {
            fail(path);
        }
        if (count == 0) {
            return summing.sum();
        }
        const std::string_view bytes(room.data(), static_cast<std::size_t>(count));
        summing.add(bytes);
        take(bytes);
    }
}

} // namespace

Digest sha256_of_file(const fs::path &file, const std::stop_token &stop) {
    return read_pieces(file, stop, [](std::string_view) {});
}

Digest copy_file_checked(const fs::path &from, const fs::path &to, unsigned mode,
                         const std::stop_token &stop) {
    const Descriptor copy = opened(to, O_WRONLY | O_CREAT | O_EXCL, mode);
    const Digest was =
        read_pieces(from, stop, [&](std::string_view bytes) { write_all(copy, bytes, to); });
    if (::fsync(copy.number()) != 0) {
        fail(to);
    }
    // So that it is read from the disk, and not from memory.
    ::posix_fadvise(copy.number(), 0, 0, POSIX_FADV_DONTNEED);
    if (sha256_of_file(to, stop) != was) {
        throw std::runtime_error(
            fmt::format("{} is not what {} is: look at the disk", to.string(), from.string()));
    }
    return was;
}

void synchronise_folder(const fs::path &folder) {
    if (::fsync(opened(folder, O_RDONLY | O_DIRECTORY).number()) != 0) {
        fail(folder);
    }
}

} // namespace gateway
