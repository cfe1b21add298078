// What the desk's server serves: the page's files, logging in and out, and a WebSocket for each
// open page.
#ifndef DESK_DESK_SITE_H
#define DESK_DESK_SITE_H

#include "common/web/site.h"
#include "common/web/static_files.h"
#include "config.h"
#include "desk.h"
#include "events.h"
#include "logins.h"
#include "pace.h"

#include <functional>
#include <map>
#include <memory>
#include <set>
#include <string>

namespace desk {

class OpenPage;

// Of refused logins so many are events in a minute: whoever guesses passwords fills no disk.
class RefusalPace {
  public:
    bool may_tell(Moment at);

  private:
    static constexpr int a_minute = 60;
    Moment since_;
    int told_ = 0;
};

class DeskSite final : public web::Site, public Desk::Audience {
  public:
    // The port makes the cookie's name this desk's own.
    DeskSite(const Config &config, Desk &desk, Logins &logins, Events &events,
             web::StaticFiles files);

    // Once the port is known.
    void set_port(unsigned short port);
    // Closes pages whose session is over, and those that never showed their token. Once a second.
    void tick();

    // web::Site
    void answer(const web::Request &request, web::Reply reply) override;
    std::shared_ptr<web::SocketUser> take_socket(const web::Request &request) override;

    // Desk::Audience
    void tell(const nlohmann::json &message) override;
    void tell_all_anew() override;

    // For OpenPage.
    Desk &desk() { return desk_; }
    Logins &logins() { return logins_; }
    void closed(const std::shared_ptr<OpenPage> &page) { pages_.erase(page); }
    // Whether this program is connected.
    bool has(const Program &program) const;
    // Whether this trader, or program, may have the desk do one thing more, in whichever of its
    // pages: another one gives it no more.
    bool may_act(const Trader &trader);
    // Whether one page more of this trader, which has shown its token, may be told the whole day.
    bool may_enter(const Trader &trader);
    // For that page.
    void make_room(const Trader &trader);

  private:
    void log_in(const web::Request &request, web::Reply reply);
    void log_out(const web::Request &request, web::Reply reply);
    web::Response logged_in(const Logins::Outcome &outcome) const;
    void note_login(const Logins::Outcome &outcome, const std::string &login,
                    const std::string &address);
    std::shared_ptr<web::SocketUser> take_program(const web::Request &request);
    // For one connection more, which has a cookie and has to show its token yet.
    void make_room_to_enter(const Trader &trader);
    std::size_t count(const std::function<bool(const OpenPage &)> &fits) const;
    void close_idlest(const std::function<bool(const OpenPage &)> &may_close,
                      const std::string &why);
    void lock_idle();
    // An empty text where there is none.
    std::string cookie_of(const web::Request &request) const;

    const Config &config_;
    Desk &desk_;
    Logins &logins_;
    Events &events_;
    RefusalPace refusals_;
    RefusalPace program_refusals_; // its own: a program's hide no guessed password
    const web::StaticFiles files_;
    const bool has_tls_;
    std::string cookie_name_;
    std::set<std::shared_ptr<OpenPage>> pages_;
    // By the trader; a program is one of its own.
    std::map<const Trader *, Pace> acts_;
    std::map<const Trader *, Pace> entries_;
};

} // namespace desk

#endif
