#include "firms/authenticator.h"

#include "common/password.h"

#include <algorithm>
#include <utility>

namespace gateway {

namespace {

// YYYYMMDD, and nothing where they never end.
bool have_ended(const Credentials &own, const std::string &date) {
    return !own.ends.empty() && own.ends < date;
}

} // namespace

bool may_come_from(const Credentials &own, const std::string &address) {
    return own.addresses.empty() ||
           std::ranges::any_of(own.addresses,
                               [&](const AddressRange &range) { return range.has(address); });
}

Authenticator::Authenticator(const Config &config)
    : firms_(config.firms), client_certificates_(config.engine.client_certificates),
      certified_(config), book_(std::make_shared<Book>(book_of(config.credentials))) {}

Authenticator::Book
Authenticator::book_of(const std::map<std::string, Credentials> &credentials) const {
    Book book;
    for (const auto &[name, own] : credentials) {
        if (std::ranges::count(firms_.names, name) == 0) {
            continue;
        }
        book.credentials.emplace(name, own);
        book.hashes.emplace(setting_of(own.password_hash), own.password_hash);
        book.is_open = book.is_open || own.addresses.empty();
        if (!certified_.keeps_out(name, own).empty()) {
            book.uncertified.insert(name);
        }
    }
    if (book.hashes.empty()) {
        const std::string hash = new_hash("");
        book.hashes.emplace(setting_of(hash), hash);
    }
    return book;
}

std::shared_ptr<const Authenticator::Book> Authenticator::book() const {
    const std::lock_guard lock(mutex_);
    return book_;
}

std::vector<std::string>
Authenticator::renew(const std::map<std::string, Credentials> &credentials) {
    Book read = book_of(credentials);
    read.reading = readings() + 1;
    std::shared_ptr<const Book> renewed;
    std::shared_ptr<const Book> old;
    {
        const std::lock_guard lock(mutex_);
        for (const std::string &firm : admitted_) {
            read.uncertified.erase(firm);
        }
        renewed = std::make_shared<const Book>(std::move(read));
        old = std::exchange(book_, renewed);
    }
    std::vector<std::string> gone;
    for (const auto &[name, before] : old->credentials) {
        const auto now = renewed->credentials.find(name);
        const bool stands =
            now != renewed->credentials.end() && now->second.username == before.username &&
            now->second.password_hash == before.password_hash &&
            !have_ended(now->second, firms_.date) && !renewed->uncertified.contains(name);
        if (!stands) {
            gone.push_back(name);
        }
    }
    return gone;
}

void Authenticator::admit(const std::string &firm) {
    const std::lock_guard lock(mutex_);
    admitted_.insert(firm);
    Book with = *book_;
    with.uncertified.erase(firm);
    book_ = std::make_shared<const Book>(std::move(with));
}

// One hash of each method and cost that any firm has: so it takes as long for every name, also one
// that nobody has. own is null where there is none to be right.
bool Authenticator::has_password(const Credentials *own, const std::string &password,
                                 const Book &book) {
    const std::string none;
    const std::string &right = own != nullptr ? own->password_hash : none;
    bool is_right = false;
    for (const auto &[setting, other] : book.hashes) {
        const bool is_own = !right.empty() && setting_of(right) == setting;
        const bool has = has_hash(password, is_own ? right : other);
        is_right = is_own ? has : is_right;
    }
    return is_right;
}

Refusal Authenticator::judge(const LogonFacts &facts) {
    const Refusal refusal = judge(facts, *book());
    // Whatever is at fault: what the next Logon of the address waits for tells nobody which. With
    // another's certificate, too, whoever guesses a password does not learn that it is right.
    if (refusal != Refusal::none) {
        guesses_.wrong(facts.address);
    }
    return refusal;
}

Refusal Authenticator::judge(const LogonFacts &facts, const Book &book) const {
    const auto found = book.credentials.find(facts.firm);
    const Credentials *const own = found == book.credentials.end() ? nullptr : &found->second;
    const bool is_right = has_password(own, facts.password, book);
    if (std::ranges::count(firms_.names, facts.firm) == 0) {
        return Refusal::unknown_name;
    }
    if (own == nullptr) {
        return Refusal::no_access;
    }
    if (!may_come_from(*own, facts.address)) {
        return Refusal::wrong_address;
    }
    if (facts.username != own->username) {
        return Refusal::wrong_name;
    }
    if (!is_right) {
        return Refusal::wrong_password;
    }
    if (have_ended(*own, firms_.date)) {
        return Refusal::no_longer;
    }
    if (book.uncertified.contains(facts.firm)) {
        return Refusal::not_certified;
    }
    const bool shows_another = client_certificates_ && facts.certificate != facts.firm;
    return shows_another ? Refusal::wrong_certificate : Refusal::none;
}

std::chrono::steady_clock::time_point Authenticator::judges_from(const std::string &address) {
    const auto now = book();
    const bool may = now->is_open || std::ranges::any_of(now->credentials, [&](const auto &each) {
                         return may_come_from(each.second, address);
                     });
    return may ? guesses_.judged_from(address) : std::chrono::steady_clock::time_point::max();
}

} // namespace gateway
