#include "common/password.h"

#include <memory>
#include <semaphore>
#include <stdexcept>
#include <string_view>

#include <crypt.h>
#include <openssl/crypto.h>

namespace gateway {

namespace {

// So many passwords are looked at at one time: each takes 16 MB and a processor for tens of
// milliseconds, and whoever connects may ask for it.
constexpr std::ptrdiff_t at_once = 4;

class Turn {
  public:
    Turn() { turns().acquire(); }
    ~Turn() { turns().release(); }
    Turn(const Turn &) = delete;
    Turn &operator=(const Turn &) = delete;

  private:
    static std::counting_semaphore<> &turns() {
        static std::counting_semaphore<> all(at_once);
        return all;
    }
};

// The data is 32 KB: too much for a stack.
std::string crypt(const std::string &password, const std::string &setting) {
    const Turn turn;
    const auto data = std::make_unique<crypt_data>();
    const char *hash = ::crypt_r(password.c_str(), setting.c_str(), data.get());
    const std::string text = hash == nullptr ? "" : hash;
    OPENSSL_cleanse(data.get(), sizeof *data);
    // A text that begins with an asterisk says that the setting is none.
    return text.starts_with('*') ? std::string() : text;
}

} // namespace

bool has_hash(const std::string &password, const std::string &hash) {
    // One that is longer is refused before it is hashed, and one with a zero byte would be read up
    // to it: another is hashed in its place, so that it takes as long.
    const bool may_be =
        password.size() < CRYPT_MAX_PASSPHRASE_SIZE && password.find('\0') == std::string::npos;
    const std::string own = crypt(may_be ? password : "", hash);
    return may_be && !own.empty() && own.size() == hash.size() &&
           CRYPTO_memcmp(own.data(), hash.data(), own.size()) == 0;
}

// $METHOD$SALT$HASH, $METHOD$COST$SALT$HASH, and two in which the salt follows on the cost.
std::string setting_of(const std::string &hash) {
    constexpr std::size_t of_bcrypt = std::string_view("$2b$12$").size();
    constexpr std::size_t of_scrypt = std::string_view("$7$CU..../....").size();
    if (hash.starts_with("$2")) {
        return hash.substr(0, of_bcrypt);
    }
    if (hash.starts_with("$7$")) {
        return hash.substr(0, of_scrypt);
    }
    const std::size_t before_hash = hash.rfind('$');
    if (before_hash == 0 || before_hash == std::string::npos) {
        return hash;
    }
    const std::size_t before_salt = hash.rfind('$', before_hash - 1);
    return hash.substr(0, before_salt + 1);
}

// Without the dollar it would be one of DES, for which any two letters are a salt: a password that
// stands where its hash has to be.
bool is_hash(const std::string &text) {
    return text.starts_with('$') && ::crypt_checksalt(text.c_str()) != CRYPT_SALT_INVALID;
}

std::string new_hash(const std::string &password) {
    char setting[CRYPT_GENSALT_OUTPUT_SIZE] = "";
    if (::crypt_gensalt_rn(nullptr, 0, nullptr, 0, setting, sizeof setting) == nullptr) {
        throw std::runtime_error("no salt");
    }
    const std::string hash = crypt(password, setting);
    if (hash.empty()) {
        throw std::runtime_error("no hash");
    }
    return hash;
}

} // namespace gateway
