#include "log/seals.h"

#include "base/private_file.h"
#include "log/session_note_line.h"

#include <algorithm>
#include <stdexcept>

#include <fmt/format.h>
#include <openssl/core_names.h>
#include <openssl/crypto.h>
#include <openssl/evp.h>
#include <openssl/params.h>
#include <openssl/pem.h>

namespace gateway {

namespace {

[[noreturn]] void fail(std::string_view what) {
    throw std::runtime_error(fmt::format("OpenSSL: {} was refused", what));
}

const unsigned char *bytes_of(std::string_view text) {
    return reinterpret_cast<const unsigned char *>(text.data());
}

using KeyReader = EVP_PKEY *(*)(BIO *, EVP_PKEY **, pem_password_cb *, void *);

// Without a terminal nobody is asked for the password of a key that has one.
int no_password(char *, int, int, void *) {
    return 0;
}

std::shared_ptr<EVP_PKEY> read_key(const std::string &text, const std::string &name, KeyReader read,
                                   std::string_view kind) {
    const std::unique_ptr<BIO, decltype(&BIO_free)> memory(
        BIO_new_mem_buf(text.data(), static_cast<int>(text.size())), BIO_free);
    std::shared_ptr<EVP_PKEY> key(
        memory ? read(memory.get(), nullptr, no_password, nullptr) : nullptr, EVP_PKEY_free);
    if (!key || EVP_PKEY_is_a(key.get(), "ED25519") != 1) {
        throw std::runtime_error(fmt::format("{}: is no {} key of Ed25519 in PEM", name, kind));
    }
    return key;
}

using Context = std::unique_ptr<EVP_MD_CTX, decltype(&EVP_MD_CTX_free)>;

SealKey read_secret(const std::filesystem::path &file) {
    std::string text = read_private(file);
    text.erase(text.find_last_not_of(" \r\n") + 1);
    const auto secret = digest_of(text);
    if (!secret) {
        throw std::runtime_error(fmt::format(
            "{}: is no key: it has to have 64 small hexadecimal digits", file.string()));
    }
    return SealKey(*secret);
}

} // namespace

std::string text_of(const LogName &log, const Position &at) {
    const bool is_early = at.place == before_day;
    return fmt::format(
        "mireseason log 6\nvenue {}\nday {}\nconfiguration {}\nterm {}\nentry {} {}\n"
        "connection {} {}\nseal {} {}\n",
        log.venue.empty() ? "-" : log.venue, log.date,
        text_of(is_early ? Digest{} : log.configuration), at.term,
        is_early ? "-1" : std::to_string(at.place), text_of(at.hash), at.event,
        text_of(at.event_hash), at.seal, text_of(at.notes));
}

std::string text_of(const LogName &log, const Checkpoint &checkpoint) {
    return fmt::format("{}checkpoint {}\nbefore {}\nend {}\n", text_of(log, checkpoint.at),
                       checkpoint.number, text_of(checkpoint.before),
                       checkpoint.is_end ? "yes" : "no");
}

std::string text_of(const Signature &signature) {
    Digest first{};
    Digest second{};
    std::copy_n(signature.begin(), first.size(), first.begin());
    std::copy_n(signature.begin() + first.size(), second.size(), second.begin());
    return text_of(first) + text_of(second);
}

// The key is taken in once: each text begins with a copy of that.
SealKey::SealKey(const Digest &secret) {
    const std::unique_ptr<EVP_MAC, decltype(&EVP_MAC_free)> method(
        EVP_MAC_fetch(nullptr, "HMAC", nullptr), EVP_MAC_free);
    begun_.reset(method ? EVP_MAC_CTX_new(method.get()) : nullptr, EVP_MAC_CTX_free);
    std::string digest = "SHA256";
    const OSSL_PARAM settings[] = {
        OSSL_PARAM_construct_utf8_string(OSSL_MAC_PARAM_DIGEST, digest.data(), 0),
        OSSL_PARAM_construct_end()};
    if (!begun_ || EVP_MAC_init(begun_.get(), secret.data(), secret.size(), settings) != 1) {
        fail("HMAC-SHA-256");
    }
}

Digest SealKey::mac_of(std::string_view text) const {
    const std::unique_ptr<EVP_MAC_CTX, decltype(&EVP_MAC_CTX_free)> context(
        EVP_MAC_CTX_dup(begun_.get()), EVP_MAC_CTX_free);
    Digest mac{};
    std::size_t size = 0;
    if (!context || EVP_MAC_update(context.get(), bytes_of(text), text.size()) != 1 ||
        EVP_MAC_final(context.get(), mac.data(), &size, mac.size()) != 1 || size != mac.size()) {
        fail("HMAC-SHA-256");
    }
    return mac;
}

SigningKey SigningKey::private_of(const std::string &text, const std::string &name) {
    return SigningKey(read_key(text, name, PEM_read_bio_PrivateKey, "private"));
}

SigningKey SigningKey::public_of(const std::string &text, const std::string &name) {
    return SigningKey(read_key(text, name, PEM_read_bio_PUBKEY, "public"));
}

Signature SigningKey::sign(std::string_view text) const {
    const Context context(EVP_MD_CTX_new(), EVP_MD_CTX_free);
    Signature signature{};
    std::size_t size = signature.size();
    if (!context || EVP_DigestSignInit(context.get(), nullptr, nullptr, nullptr, key_.get()) != 1 ||
        EVP_DigestSign(context.get(), signature.data(), &size, bytes_of(text), text.size()) != 1 ||
        size != signature.size()) {
        fail("a signature");
    }
    return signature;
}

bool SigningKey::has_signed(const Signature &signature, std::string_view text) const {
    const Context context(EVP_MD_CTX_new(), EVP_MD_CTX_free);
    return context &&
           EVP_DigestVerifyInit(context.get(), nullptr, nullptr, nullptr, key_.get()) == 1 &&
           EVP_DigestVerify(context.get(), signature.data(), signature.size(), bytes_of(text),
                            text.size()) == 1;
}

bool SigningKey::is_of_pair(const SigningKey &other) const {
    return EVP_PKEY_eq(key_.get(), other.key_.get()) == 1;
}

std::shared_ptr<const SealKeys> read_seal_keys(const SealFiles &files) {
    SealKeys keys{read_secret(files.secret),
                  SigningKey::private_of(read_private(files.own), files.own.string())};
    keys.gateways.push_back(keys.own);
    for (const std::filesystem::path &file : files.gateways) {
        keys.gateways.push_back(SigningKey::public_of(read_public(file), file.string()));
        keys.is_own_listed = keys.is_own_listed || keys.gateways.back().is_of_pair(keys.own);
    }
    return std::make_shared<const SealKeys>(std::move(keys));
}

Seal Sealer::seal(const Position &at) const {
    return {at, keys_->secret.mac_of(text_of(log_, at)), {}};
}

bool Sealer::is_sealed(const Seal &seal) const {
    const Digest mac = keys_->secret.mac_of(text_of(log_, seal.at));
    return CRYPTO_memcmp(mac.data(), seal.mac.data(), mac.size()) == 0;
}

bool Sealer::follows(const Seal &seal, const Position &before) const {
    return seal.at.seal == before.seal + 1 &&
           seal.at.notes == hash_of_notes(before.notes, seal.notes) && is_sealed(seal);
}

Checkpoint Sealer::sign(Checkpoint checkpoint) const {
    checkpoint.signature = keys_->own.sign(text_of(log_, checkpoint));
    return checkpoint;
}

bool Sealer::is_signed(const Checkpoint &checkpoint) const {
    const std::string text = text_of(log_, checkpoint);
    return std::ranges::any_of(keys_->gateways, [&](const SigningKey &key) {
        return key.has_signed(checkpoint.signature, text);
    });
}

} // namespace gateway
