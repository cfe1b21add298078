// Seals and signs the log with the gateways' keys. Somebody who can write to its database and has
// none of these keys can make neither a seal nor a signature.
#ifndef GATEWAY_LOG_SEALS_H
#define GATEWAY_LOG_SEALS_H

#include "log/records.h"

#include <filesystem>
#include <memory>
#include <string>
#include <string_view>
#include <vector>

#include <openssl/types.h>

namespace gateway {

// Which log it is. It stands in each seal, so that none is good for another log.
struct LogName {
    std::string venue; // empty where it is the only one
    std::string date;  // YYYYMMDD
    Digest configuration{};
};

// What is sealed, as schema.sql has it; and what is signed.
std::string text_of(const LogName &log, const Position &at);
std::string text_of(const LogName &log, const Checkpoint &checkpoint);
// Small hexadecimal digits.
std::string text_of(const Signature &signature);

// The secret of the gateways of a log, for HMAC-SHA-256. Any thread may use it.
class SealKey {
  public:
    explicit SealKey(const Digest &secret);

    Digest mac_of(std::string_view text) const;

  private:
    std::shared_ptr<EVP_MAC_CTX> begun_;
};

// A gateway's key of Ed25519, or its public half. Any thread may use it.
class SigningKey {
  public:
    // Of a text in PEM; name is that of its file. Throws std::runtime_error.
    static SigningKey private_of(const std::string &text, const std::string &name);
    static SigningKey public_of(const std::string &text, const std::string &name);

    // With the private half.
    Signature sign(std::string_view text) const;
    bool has_signed(const Signature &signature, std::string_view text) const;
    // Whether both are of one pair of keys.
    bool is_of_pair(const SigningKey &other) const;

  private:
    explicit SigningKey(std::shared_ptr<EVP_PKEY> key) : key_(std::move(key)) {}

    std::shared_ptr<EVP_PKEY> key_;
};

// The keys of one gateway, and those by which it knows the others of its log.
struct SealKeys {
    SealKey secret;
    SigningKey own;
    std::vector<SigningKey> gateways{}; // the public halves of all
    bool is_own_listed = false;         // whether its own is among those that it was given
};

// The files of them, as the configuration names them.
struct SealFiles {
    std::filesystem::path secret;
    std::filesystem::path own;
    std::vector<std::filesystem::path> gateways;
};

// Throws std::runtime_error that names the file: also where others may read it.
std::shared_ptr<const SealKeys> read_seal_keys(const SealFiles &files);

// Seals and signs one log. Any thread may use it.
class Sealer {
  public:
    Sealer(LogName log, std::shared_ptr<const SealKeys> keys)
        : log_(std::move(log)), keys_(std::move(keys)) {}

    const LogName &log() const { return log_; }

    // Takes a microsecond or two.
    Seal seal(const Position &at) const;
    bool is_sealed(const Seal &seal) const;
    // Whether it is right, and it follows on one that stands there, with its session notes.
    bool follows(const Seal &seal, const Position &before) const;
    // The checkpoint with its signature. Takes some sixty.
    Checkpoint sign(Checkpoint checkpoint) const;
    // By one of the gateways.
    bool is_signed(const Checkpoint &checkpoint) const;

  private:
    LogName log_;
    std::shared_ptr<const SealKeys> keys_;
};

} // namespace gateway

#endif
