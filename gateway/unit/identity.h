// Keys and certificates for tests of TLS, and lists of those that were taken back.
#ifndef GATEWAY_TESTS_IDENTITY_H
#define GATEWAY_TESTS_IDENTITY_H

#include "check.h"

#include <cstdio>
#include <filesystem>
#include <memory>
#include <string>
#include <vector>

#include <openssl/evp.h>
#include <openssl/pem.h>
#include <openssl/ssl.h>
#include <openssl/x509.h>
#include <openssl/x509v3.h>

namespace gateway::tests {

template <typename Type> using Owned = std::unique_ptr<Type, void (*)(Type *)>;

// A key, and a certificate of it that an authority has signed, or it itself.
class Identity {
  public:
    Identity(const std::vector<std::string> &names, long serial,
             const Identity *authority = nullptr)
        : key_(EVP_PKEY_Q_keygen(nullptr, nullptr, "EC", "P-256"), EVP_PKEY_free),
          own_(X509_new(), X509_free) {
        X509_set_version(own_.get(), X509_VERSION_3);
        ASN1_INTEGER_set(X509_get_serialNumber(own_.get()), serial);
        X509_gmtime_adj(X509_getm_notBefore(own_.get()), -60);
        X509_gmtime_adj(X509_getm_notAfter(own_.get()), 3600);
        X509_set_pubkey(own_.get(), key_.get());
        for (const std::string &name : names) {
            X509_NAME_add_entry_by_txt(X509_get_subject_name(own_.get()), "CN", MBSTRING_ASC,
                                       reinterpret_cast<const unsigned char *>(name.c_str()), -1,
                                       -1, 0);
        }
        const Identity &signs = authority == nullptr ? *this : *authority;
        X509_set_issuer_name(own_.get(), X509_get_subject_name(signs.own_.get()));
        if (authority == nullptr) {
            const Owned<X509_EXTENSION> is_one(
                X509V3_EXT_conf_nid(nullptr, nullptr, NID_basic_constraints, "critical,CA:TRUE"),
                X509_EXTENSION_free);
            X509_add_ext(own_.get(), is_one.get(), -1);
        }
        check(X509_sign(own_.get(), signs.key_.get(), EVP_sha256()) > 0, "no signature");
    }

    // Into a file, or behind what it has.
    std::string certificate(const std::filesystem::path &file, const char *mode = "w") const {
        const std::unique_ptr<FILE, int (*)(FILE *)> to(std::fopen(file.c_str(), mode),
                                                        std::fclose);
        check(PEM_write_X509(to.get(), own_.get()) == 1, "no certificate");
        return file;
    }
    std::string key(const std::filesystem::path &file) const {
        const std::unique_ptr<FILE, int (*)(FILE *)> to(std::fopen(file.c_str(), "w"), std::fclose);
        check(PEM_write_PrivateKey(to.get(), key_.get(), nullptr, nullptr, 0, nullptr, nullptr) ==
                  1,
              "no key");
        return file;
    }
    // That it has taken back the certificate of this number.
    std::string revoked(const std::filesystem::path &file, long serial,
                        const char *mode = "w") const {
        const Owned<X509_CRL> list(X509_CRL_new(), X509_CRL_free);
        X509_CRL_set_version(list.get(), X509_CRL_VERSION_2);
        X509_CRL_set_issuer_name(list.get(), X509_get_subject_name(own_.get()));
        const Owned<ASN1_TIME> time(X509_gmtime_adj(nullptr, -60), ASN1_TIME_free);
        const Owned<ASN1_TIME> next(X509_gmtime_adj(nullptr, 3600), ASN1_TIME_free);
        X509_CRL_set1_lastUpdate(list.get(), time.get());
        X509_CRL_set1_nextUpdate(list.get(), next.get());
        const Owned<ASN1_INTEGER> number(ASN1_INTEGER_new(), ASN1_INTEGER_free);
        ASN1_INTEGER_set(number.get(), serial);
        X509_REVOKED *const row = X509_REVOKED_new();
        X509_REVOKED_set_serialNumber(row, number.get());
        X509_REVOKED_set_revocationDate(row, time.get());
        X509_CRL_add0_revoked(list.get(), row);
        check(X509_CRL_sign(list.get(), key_.get(), EVP_sha256()) > 0, "no signature");
        const std::unique_ptr<FILE, int (*)(FILE *)> to(std::fopen(file.c_str(), mode),
                                                        std::fclose);
        check(PEM_write_X509_CRL(to.get(), list.get()) == 1, "no list");
        return file;
    }
    void use_in(SSL_CTX *context) const {
        check(SSL_CTX_use_certificate(context, own_.get()) == 1, "it takes no certificate");
        check(SSL_CTX_use_PrivateKey(context, key_.get()) == 1, "it takes no key");
    }

  private:
    Owned<EVP_PKEY> key_;
    Owned<X509> own_;
};

} // namespace gateway::tests

#endif
