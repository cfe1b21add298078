#include "log/make_keys.h"

#include "base/digest.h"
#include "base/private_file.h"

#include <algorithm>
#include <cctype>
#include <memory>
#include <stdexcept>
#include <string_view>

#include <fmt/format.h>
#include <openssl/evp.h>
#include <openssl/pem.h>
#include <openssl/rand.h>

namespace gateway {

namespace {

namespace fs = std::filesystem;

using Memory = std::unique_ptr<BIO, decltype(&BIO_free)>;

[[noreturn]] void fail(std::string_view what) {
    throw std::runtime_error(fmt::format("OpenSSL makes no {}", what));
}

std::string text_in(BIO *memory) {
    char *bytes = nullptr;
    const long size = BIO_get_mem_data(memory, &bytes);
    return {bytes, static_cast<std::size_t>(size)};
}

std::string new_secret() {
    Digest secret{};
    if (RAND_priv_bytes(secret.data(), static_cast<int>(secret.size())) != 1) {
        fail("secret");
    }
    return text_of(secret) + "\n";
}

struct Pair {
    std::string own;
    std::string known; // its public half
};

Pair new_pair() {
    const std::unique_ptr<EVP_PKEY, decltype(&EVP_PKEY_free)> key(
        EVP_PKEY_Q_keygen(nullptr, nullptr, "ED25519"), EVP_PKEY_free);
    const Memory own(BIO_new(BIO_s_mem()), BIO_free);
    const Memory known(BIO_new(BIO_s_mem()), BIO_free);
    if (!key || !own || !known ||
        PEM_write_bio_PKCS8PrivateKey(own.get(), key.get(), nullptr, nullptr, 0, nullptr,
                                      nullptr) != 1 ||
        PEM_write_bio_PUBKEY(known.get(), key.get()) != 1) {
        fail("key");
    }
    return {text_in(own.get()), text_in(known.get())};
}

void check_name(const std::string &name) {
    const auto is_of_names = [](unsigned char c) {
        return std::isalnum(c) != 0 || c == '-' || c == '_';
    };
    if (name.empty() || name == "seal" || !std::ranges::all_of(name, is_of_names)) {
        throw std::runtime_error(fmt::format(
            "`{}` is no name of a gateway: it has letters, digits, - and _, and is not `seal`",
            name));
    }
}

} // namespace

std::vector<std::string> make_keys(const fs::path &folder, std::vector<std::string> names) {
    if (names.empty()) {
        names.emplace_back("gateway");
    }
    std::ranges::for_each(names, check_name);
    fs::create_directories(folder);
    std::vector<std::string> made;
    const auto make = [&](const std::string &name, const std::string &text, unsigned mode) {
        const fs::path file = folder / name;
        write_new(file, text, mode);
        made.push_back(file.string());
    };
    make("seal.key", new_secret(), 0600);
    for (const std::string &name : names) {
        const Pair pair = new_pair();
        make(name + ".pem", pair.own, 0600);
        make(name + ".pub", pair.known, 0644);
    }
    return made;
}

} // namespace gateway
