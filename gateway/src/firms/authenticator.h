// Decides whether the sender of a Logon is who it says.
#ifndef GATEWAY_FIRMS_AUTHENTICATOR_H
#define GATEWAY_FIRMS_AUTHENTICATOR_H

#include "config/certified_firms.h"
#include "firms/password_guesses.h"
#include "session/connection_facts.h"

#include <chrono>
#include <cstdint>
#include <map>
#include <memory>
#include <mutex>
#include <set>
#include <string>
#include <vector>

namespace gateway {

// Whether a firm of these credentials may come from this address, which has no port.
bool may_come_from(const Credentials &own, const std::string &address);

// Any thread may ask. The credentials may be changed meanwhile.
class Authenticator {
  public:
    explicit Authenticator(const Config &config);

    // Takes as long for every name, known or not, and whatever is wrong: the password is hashed in
    // any case.
    Refusal judge(const LogonFacts &facts);
    // From when on a Logon of this address is judged: later after wrong passwords, and never where
    // no firm may come from it. So whoever comes from elsewhere takes no turn from a firm.
    std::chrono::steady_clock::time_point judges_from(const std::string &address);

    // How many wrong passwords came from this address, one after the other.
    std::size_t wrong_of(const std::string &address) { return guesses_.wrong_of(address); }

    // How often there were other credentials. To be asked before judge().
    std::uint64_t readings() const { return book()->reading; }

    // Other credentials from now on. Returns the firms that have none any more, or others, or whose
    // time is over: what was let in by the old ones is to go.
    std::vector<std::string> renew(const std::map<std::string, Credentials> &credentials);

    // An operator has admitted a report of the firm: for this day, whatever its credentials have.
    void admit(const std::string &firm);
    // Whether the firm lacks an admitted report that it needs.
    bool lacks_report(const std::string &firm) const { return book()->uncertified.contains(firm); }

  private:
    // What is asked of credentials, of one reading of them.
    struct Book {
        std::map<std::string, Credentials> credentials; // of firms of the venue
        std::map<std::string, std::string> hashes;      // of each setting, one that has it
        std::set<std::string> uncertified;              // those without a report that they need
        bool is_open = false;                           // some firm may come from any address
        std::uint64_t reading = 0;
    };

    Book book_of(const std::map<std::string, Credentials> &credentials) const;
    std::shared_ptr<const Book> book() const;
    Refusal judge(const LogonFacts &facts, const Book &book) const;
    static bool has_password(const Credentials *own, const std::string &password, const Book &book);

    const VenueFirms firms_;
    const bool client_certificates_;
    const CertifiedFirms certified_;
    PasswordGuesses guesses_;

    mutable std::mutex mutex_;
    std::shared_ptr<const Book> book_;
    std::set<std::string> admitted_; // today
};

} // namespace gateway

#endif
