// Knows who is logged in, by a cookie, which the browser sends by itself, and by a token that only
// the page has: browsers share cookies between ports, so a cookie alone proves nothing.
#ifndef DESK_LOGINS_H
#define DESK_LOGINS_H

#include "common/web/secrets.h"
#include "config.h"
#include "moment.h"

#include <functional>
#include <map>
#include <optional>
#include <string>
#include <utility>
#include <variant>
#include <vector>

#include <boost/asio/io_context.hpp>
#include <boost/asio/thread_pool.hpp>

namespace desk {

// How often something may fail in a minute, for each of those who try. A try counts as a failure
// until it has succeeded, so that no more pass that come at once. Whoever tries has one of so many
// places, which two hardly ever share: nobody's failures are forgotten to make room for another's,
// and a login that nobody has is counted as one that somebody has. Without the secret nobody can
// tell who shares a place with whom.
class Attempts {
  public:
    explicit Attempts(int most, std::string secret = web::new_secret())
        : most_(most), secret_(std::move(secret)) {}
    bool may_try(const std::string &who, Moment at);
    void begins(const std::string &who, Moment at);
    // The try that began then.
    void succeeded(const std::string &who, Moment at);

  private:
    std::string place_of(const std::string &who) const;

    const int most_;
    const std::string secret_;
    std::map<std::string, std::vector<Moment>> failures_; // by place
};

class Logins {
  public:
    static constexpr std::chrono::hours lasts{12};

    struct Ticket {
        std::string cookie;
        std::string token;
    };
    enum class Refusal { wrong, too_often, busy };
    using Outcome = std::variant<Ticket, Refusal>;

    // Sessions are kept in a file, by their digests, so that a page goes on after a restart. One
    // that nobody has used for `lock_after` is over.
    Logins(boost::asio::io_context &io, std::vector<Trader> traders, std::string path,
           std::optional<std::chrono::minutes> lock_after);
    ~Logins();

    // Passwords are judged on a thread of their own; `tell` is called on that of io.
    void log_in(const std::string &address, const std::string &login, const std::string &password,
                std::function<void(Outcome)> tell);
    // `done` is called, on the thread of io, once the session is over for good.
    void log_out(const std::string &cookie, std::function<void()> done);
    // Its trader has done something.
    void saw(const std::string &cookie);
    // Ends the sessions that nobody has used for too long; their logins.
    std::vector<std::string> lock();
    bool has(const std::string &login) const { return trader(login) != nullptr; }

    // Null where the cookie is of no session.
    const Trader *trader_of(const std::string &cookie);
    bool has_token(const std::string &cookie, const std::string &token);

  private:
    struct Session {
        std::string token; // its digest
        std::string login;
        std::string password; // the digest of its hash: a new password ends the session
        Moment until;
        Moment seen; // of the trader; since the start where nothing is known
    };
    const Trader *trader(const std::string &login) const;
    void begin(const Trader &trader, const std::function<void(Outcome)> &tell);
    const Session *session(const std::string &cookie);
    void drop_old(const std::string &login);
    void read();
    void write(std::function<void()> done);

    boost::asio::io_context &io_;
    const std::vector<Trader> traders_;
    const std::string path_;
    const std::optional<std::chrono::minutes> lock_after_;
    std::map<std::string, Session> sessions_; // by the digest of the cookie
    Attempts of_address_{20};
    Attempts of_login_{10};
    std::size_t judged_ = 0; // passwords that wait for their thread
    boost::asio::thread_pool thread_{1};
};

} // namespace desk

#endif
