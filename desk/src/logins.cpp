#include "logins.h"

#include "common/password.h"
#include "common/web/secrets.h"
#include "file_store.h"

#include <algorithm>
#include <stdexcept>

#include <boost/asio/post.hpp>
#include <nlohmann/json.hpp>

namespace desk {

using nlohmann::json;

namespace {

constexpr std::size_t most_judged = 16;   // passwords that wait
constexpr std::size_t most_sessions = 16; // of one login; the oldest ends
constexpr std::size_t place_digits = 4;   // hexadecimal ones, of 65,536 places
constexpr std::chrono::minutes window{1};

} // namespace

std::string Attempts::place_of(const std::string &who) const {
    return web::digest_of(secret_ + who).substr(0, place_digits);
}

bool Attempts::may_try(const std::string &who, Moment at) {
    const auto found = failures_.find(place_of(who));
    if (found == failures_.end()) {
        return true;
    }
    std::erase_if(found->second, [&](Moment one) { return one + window <= at; });
    return static_cast<int>(found->second.size()) < most_;
}

void Attempts::begins(const std::string &who, Moment at) {
    failures_[place_of(who)].push_back(at);
}

void Attempts::succeeded(const std::string &who, Moment at) {
    const auto found = failures_.find(place_of(who));
    if (found == failures_.end()) {
        return;
    }
    const auto one = std::find(found->second.begin(), found->second.end(), at);
    if (one != found->second.end()) {
        found->second.erase(one);
    }
}

Logins::Logins(boost::asio::io_context &io, std::vector<Trader> traders, std::string path,
               std::optional<std::chrono::minutes> lock_after)
    : io_(io), traders_(std::move(traders)), path_(std::move(path)), lock_after_(lock_after) {
    read();
}

Logins::~Logins() {
    thread_.join();
}

const Trader *Logins::trader(const std::string &login) const {
    const auto found = std::find_if(traders_.begin(), traders_.end(),
                                    [&](const Trader &one) { return one.login == login; });
    return found == traders_.end() ? nullptr : &*found;
}

void Logins::log_in(const std::string &address, const std::string &login,
                    const std::string &password, std::function<void(Outcome)> tell) {
    const Moment begun = now();
    if (!of_address_.may_try(address, begun) || !of_login_.may_try(login, begun)) {
        return tell(Refusal::too_often);
    }
    if (judged_ >= most_judged) {
        return tell(Refusal::busy);
    }
    ++judged_;
    of_address_.begins(address, begun);
    of_login_.begins(login, begun);
    const Trader *own = trader(login);
    // For a login that nobody has, the same work is done with somebody's hash.
    const std::string hash = own != nullptr ? own->password : traders_.front().password;
    boost::asio::post(thread_, [this, own, hash, address, login, begun, password, tell] {
        const bool is_right = gateway::has_hash(password, hash) && own != nullptr;
        boost::asio::post(io_, [this, own, is_right, address, login, begun, tell] {
            --judged_;
            if (!is_right) {
                return tell(Refusal::wrong);
            }
            of_address_.succeeded(address, begun);
            of_login_.succeeded(login, begun);
            begin(*own, tell);
        });
    });
}

void Logins::begin(const Trader &trader, const std::function<void(Outcome)> &tell) {
    drop_old(trader.login);
    const Ticket ticket{web::new_secret(), web::new_secret()};
    sessions_[web::digest_of(ticket.cookie)] =
        Session{web::digest_of(ticket.token), trader.login, web::digest_of(trader.password),
                now() + lasts, now()};
    write([tell, ticket] { tell(ticket); });
}

// Makes room for one more.
void Logins::drop_old(const std::string &login) {
    std::erase_if(sessions_, [](const auto &one) { return one.second.until <= now(); });
    const auto is_own = [&](const auto &one) { return one.second.login == login; };
    if (static_cast<std::size_t>(std::count_if(sessions_.begin(), sessions_.end(), is_own)) <
        most_sessions) {
        return;
    }
    auto oldest = sessions_.end();
    for (auto at = sessions_.begin(); at != sessions_.end(); ++at) {
        if (is_own(*at) && (oldest == sessions_.end() || at->second.until < oldest->second.until)) {
            oldest = at;
        }
    }
    sessions_.erase(oldest);
}

void Logins::log_out(const std::string &cookie, std::function<void()> done) {
    sessions_.erase(web::digest_of(cookie));
    write(std::move(done));
}

void Logins::saw(const std::string &cookie) {
    const auto found = sessions_.find(web::digest_of(cookie));
    if (found != sessions_.end()) {
        found->second.seen = now();
    }
}

std::vector<std::string> Logins::lock() {
    std::vector<std::string> locked;
    const Moment at = now();
    std::erase_if(sessions_, [&](const auto &one) {
        const bool is_idle = lock_after_ && one.second.seen + *lock_after_ <= at;
        if (is_idle) {
            locked.push_back(one.second.login);
        }
        return is_idle;
    });
    if (!locked.empty()) {
        write([] {});
    }
    return locked;
}

const Logins::Session *Logins::session(const std::string &cookie) {
    const auto found = sessions_.find(web::digest_of(cookie));
    return found == sessions_.end() || found->second.until <= now() ? nullptr : &found->second;
}

const Trader *Logins::trader_of(const std::string &cookie) {
    const Session *own = session(cookie);
    return own == nullptr ? nullptr : trader(own->login);
}

bool Logins::has_token(const std::string &cookie, const std::string &token) {
    const Session *own = session(cookie);
    return own != nullptr && web::are_equal(own->token, web::digest_of(token));
}

// A session of a login that has gone, or has another password by now, is over.
void Logins::read() {
    const json text = read_json(path_);
    for (const auto &[cookie, one] : text.items()) {
        try {
            const Session session{one.at("token"), one.at("login"), one.at("password"),
                                  Moment(std::chrono::milliseconds(one.at("until"))), now()};
            const Trader *own = trader(session.login);
            if (own != nullptr && web::digest_of(own->password) == session.password) {
                sessions_[cookie] = session;
            }
        } catch (const json::exception &) {
            continue; // none of this form: whoever had it logs in again
        }
    }
}

// By its thread: whoever serves pages does not wait for the disk.
void Logins::write(std::function<void()> done) {
    json text = json::object();
    for (const auto &[cookie, one] : sessions_) {
        text[cookie] = {{"token", one.token},
                        {"login", one.login},
                        {"password", one.password},
                        {"until", milliseconds_of(one.until)}};
    }
    boost::asio::post(thread_, [this, text = std::move(text), done = std::move(done)] {
        try {
            write_json(path_, text);
        } catch (const std::runtime_error &) {
            // Whoever is logged in goes on, and logs in again after a restart. A full disk ends
            // the desk at its journal.
        }
        boost::asio::post(io_, done);
    });
}

} // namespace desk
