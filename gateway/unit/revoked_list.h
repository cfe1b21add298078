// A list of certificates that were taken back, for tests of when it ends.
#ifndef GATEWAY_TESTS_REVOKED_LIST_H
#define GATEWAY_TESTS_REVOKED_LIST_H

#include "check.h"

#include <chrono>
#include <cstdio>
#include <filesystem>
#include <memory>
#include <optional>

#include <openssl/evp.h>
#include <openssl/pem.h>
#include <openssl/x509.h>

namespace gateway::tests {

// Puts one behind what the file has, of nobody's: from and to so many seconds from now, or without
// an end.
inline void add_list(const std::filesystem::path &file, std::chrono::seconds begins,
                     std::optional<std::chrono::seconds> ends) {
    const std::unique_ptr<EVP_PKEY, decltype(&EVP_PKEY_free)> key(
        EVP_PKEY_Q_keygen(nullptr, nullptr, "ED25519"), EVP_PKEY_free);
    const std::unique_ptr<X509_CRL, decltype(&X509_CRL_free)> list(X509_CRL_new(), X509_CRL_free);
    using Time = std::unique_ptr<ASN1_TIME, decltype(&ASN1_TIME_free)>;
    X509_CRL_set_version(list.get(), X509_CRL_VERSION_2);
    const Time begin(X509_gmtime_adj(nullptr, begins.count()), ASN1_TIME_free);
    X509_CRL_set1_lastUpdate(list.get(), begin.get());
    if (ends) {
        const Time end(X509_gmtime_adj(nullptr, ends->count()), ASN1_TIME_free);
        X509_CRL_set1_nextUpdate(list.get(), end.get());
    }
    check(X509_CRL_sign(list.get(), key.get(), nullptr) > 0, "no signature");
    const std::unique_ptr<FILE, int (*)(FILE *)> to(std::fopen(file.c_str(), "a"), std::fclose);
    check(to != nullptr && PEM_write_X509_CRL(to.get(), list.get()) == 1, "no list");
}

} // namespace gateway::tests

#endif
