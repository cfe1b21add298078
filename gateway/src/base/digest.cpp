#include "base/digest.h"

#include <memory>
#include <stdexcept>

#include <openssl/evp.h>

namespace gateway {

namespace {

int value_of_digit(char c) {
    if (c >= '0' && c <= '9') {
        return c - '0';
    }
    return c >= 'a' && c <= 'f' ? c - 'a' + 10 : -1;
}

struct FreeMethod {
    void operator()(EVP_MD *method) const { EVP_MD_free(method); }
};

// Looked up once: OpenSSL would for each digest.
const EVP_MD *sha256_method() {
    static const std::unique_ptr<EVP_MD, FreeMethod> method(
        EVP_MD_fetch(nullptr, "SHA256", nullptr));
    return method.get();
}

} // namespace

Digest sha256(std::string_view bytes) {
    Digest digest{};
    unsigned size = 0;
    const EVP_MD *method = sha256_method();
    if (method == nullptr ||
        EVP_Digest(bytes.data(), bytes.size(), digest.data(), &size, method, nullptr) != 1 ||
        size != digest.size()) {
        throw std::runtime_error("SHA-256 was refused");
    }
    return digest;
}

std::string text_of(const Digest &digest) {
    static constexpr std::string_view digits = "0123456789abcdef";
    std::string text(digest.size() * 2, '\0');
    auto to = text.begin();
    for (const unsigned char byte : digest) {
        *to++ = digits[byte >> 4];
        *to++ = digits[byte & 15];
    }
    return text;
}

std::optional<Digest> digest_of(std::string_view digits) {
    Digest digest{};
    if (digits.size() != digest.size() * 2) {
        return std::nullopt;
    }
    for (std::size_t at = 0; at < digest.size(); ++at) {
        const int high = value_of_digit(digits[2 * at]);
        const int low = value_of_digit(digits[2 * at + 1]);
        if (high < 0 || low < 0) {
            return std::nullopt;
        }
        digest[at] = static_cast<unsigned char>(high * 16 + low);
    }
    return digest;
}

} // namespace gateway
