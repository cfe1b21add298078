#include "desk_site.h"

#include "common/web/cookies.h"
#include "open_page.h"

#include <algorithm>
#include <vector>

#include <nlohmann/json.hpp>

namespace desk {

using nlohmann::json;

namespace {

constexpr std::size_t most_pages = 64;
constexpr std::size_t most_pages_of_login = 8;
// Of one login, in all its pages, or of one program: more is no person's doing.
constexpr double commands_a_second = 20, commands_at_once = 60;
constexpr double entries_a_second = 1, entries_at_once = 20;

web::Response refusal(unsigned status, const std::string &why) {
    return {status, "application/json", json{{"why", why}}.dump(), {}};
}

// A form of another site can't send this type without asking first.
bool is_json(const web::Request &request) {
    return request.content_type.rfind("application/json", 0) == 0;
}

std::string text_in(const json &message, const char *key) {
    const auto found = message.find(key);
    return found != message.end() && found->is_string() ? found->get<std::string>() : "";
}

struct RefusalWords {
    unsigned status;
    const char *why;
};

RefusalWords words_of(Logins::Refusal refusal) {
    switch (refusal) {
    case Logins::Refusal::wrong:
        return {403, "Wrong login or password."};
    case Logins::Refusal::too_often:
        return {429, "Too many wrong tries: wait a minute."};
    case Logins::Refusal::busy:
        return {503, "Many log in just now: try again."};
    }
    return {403, ""};
}

std::string for_minutes(std::chrono::minutes minutes) {
    return std::to_string(minutes.count()) + (minutes.count() == 1 ? " minute" : " minutes");
}

} // namespace

bool RefusalPace::may_tell(Moment at) {
    if (since_ + std::chrono::minutes(1) <= at) {
        since_ = at;
        told_ = 0;
    }
    return ++told_ <= a_minute;
}

DeskSite::DeskSite(const Config &config, Desk &desk, Logins &logins, Events &events,
                   web::StaticFiles files)
    : config_(config), desk_(desk), logins_(logins), events_(events), files_(std::move(files)),
      has_tls_(config.server.certificate.has_value()) {}

void DeskSite::set_port(unsigned short port) {
    cookie_name_ = std::string(has_tls_ ? "__Host-" : "") + "desk-" + config_.firm + "-" +
                   std::to_string(port);
}

std::string DeskSite::cookie_of(const web::Request &request) const {
    const auto found = request.cookies.find(cookie_name_);
    return found == request.cookies.end() ? std::string() : found->second;
}

void DeskSite::answer(const web::Request &request, web::Reply reply) {
    if (request.method == web::Method::post && is_json(request)) {
        if (request.path == "/login") {
            return log_in(request, std::move(reply));
        }
        if (request.path == "/logout") {
            return log_out(request, std::move(reply));
        }
    }
    if (std::optional<web::Response> file = files_.find(request)) {
        return reply(std::move(*file));
    }
    reply(web::Response{404, "text/plain; charset=utf-8", "there is no such page\n", {}});
}

void DeskSite::log_in(const web::Request &request, web::Reply reply) {
    const json message = json::parse(request.body, nullptr, false);
    if (!message.is_object()) {
        return reply(refusal(400, "This is no login."));
    }
    const std::string login = text_in(message, "login");
    logins_.log_in(request.address, login, text_in(message, "password"),
                   [this, login, address = request.address,
                    reply = std::move(reply)](const Logins::Outcome &outcome) {
                       note_login(outcome, login, address);
                       reply(logged_in(outcome));
                   });
}

// A name that nobody has may be a password in the wrong field.
void DeskSite::note_login(const Logins::Outcome &outcome, const std::string &login,
                          const std::string &address) {
    const auto *why = std::get_if<Logins::Refusal>(&outcome);
    if (why == nullptr) {
        return events_.tell("Login: " + login + " from " + address);
    }
    if (refusals_.may_tell(now())) {
        events_.tell("Login refused: " + (logins_.has(login) ? login : "a login that nobody has") +
                     " from " + address + ": " + words_of(*why).why);
    }
}

web::Response DeskSite::logged_in(const Logins::Outcome &outcome) const {
    if (const auto *why = std::get_if<Logins::Refusal>(&outcome)) {
        const RefusalWords words = words_of(*why);
        return refusal(words.status, words.why);
    }
    const auto &ticket = std::get<Logins::Ticket>(outcome);
    return {
        200,
        "application/json",
        json{{"token", ticket.token}}.dump(),
        {{"Set-Cookie", web::set_cookie(cookie_name_, ticket.cookie, Logins::lasts, has_tls_)}}};
}

void DeskSite::log_out(const web::Request &request, web::Reply reply) {
    const json message = json::parse(request.body, nullptr, false);
    const std::string cookie = cookie_of(request);
    // Its session may be over by the next look at the clock.
    const Trader *trader = logins_.trader_of(cookie);
    if (trader == nullptr || !message.is_object() ||
        !logins_.has_token(cookie, text_in(message, "token"))) {
        return reply(refusal(403, "Not logged in."));
    }
    events_.tell("Logout: " + trader->login + " from " + request.address);
    logins_.log_out(cookie, [this, reply = std::move(reply)] {
        reply({200,
               "application/json",
               "{}",
               {{"Set-Cookie",
                 web::set_cookie(cookie_name_, "", std::chrono::seconds(0), has_tls_)}}});
    });
    const std::vector<std::shared_ptr<OpenPage>> pages(pages_.begin(), pages_.end());
    for (const std::shared_ptr<OpenPage> &page : pages) {
        if (page->is_of(cookie)) {
            page->end();
        }
    }
}

std::shared_ptr<web::SocketUser> DeskSite::take_socket(const web::Request &request) {
    if (request.path == "/program") {
        return take_program(request);
    }
    const std::string cookie = cookie_of(request);
    const Trader *trader = request.path == "/socket" ? logins_.trader_of(cookie) : nullptr;
    if (trader == nullptr) {
        return nullptr;
    }
    make_room_to_enter(*trader);
    auto page = std::make_shared<OpenPage>(*this, *trader, cookie);
    pages_.insert(page);
    return page;
}

// No page of another site can have this header. A program that comes again takes the place of the
// connection that it had.
std::shared_ptr<web::SocketUser> DeskSite::take_program(const web::Request &request) {
    const std::string scheme = "Bearer ";
    const Program *program = request.authorization.starts_with(scheme)
                                 ? desk_.program_with(request.authorization.substr(scheme.size()))
                                 : nullptr;
    const char *why = program == nullptr             ? "no program has the token"
                      : !may_enter(program->acts_as) ? "it connects too often"
                                                     : nullptr;
    if (why != nullptr) {
        if (program_refusals_.may_tell(now())) {
            events_.tell(std::string("Program refused: ") + why + ", from " + request.address);
        }
        return nullptr;
    }
    const std::vector<std::shared_ptr<OpenPage>> pages(pages_.begin(), pages_.end());
    for (const std::shared_ptr<OpenPage> &page : pages) {
        if (page->is_of(*program)) {
            pages_.erase(page);
            page->end("This program has connected again.");
        }
    }
    events_.tell("Program: " + program->acts_as.name + " from " + request.address);
    auto page = std::make_shared<OpenPage>(*this, *program);
    pages_.insert(page);
    return page;
}

bool DeskSite::may_act(const Trader &trader) {
    const Moment at = now();
    return acts_.try_emplace(&trader, commands_a_second, commands_at_once, at)
        .first->second.may_go(at);
}

// Each page, and each connection of a program, is told the whole day.
bool DeskSite::may_enter(const Trader &trader) {
    const Moment at = now();
    return entries_.try_emplace(&trader, entries_a_second, entries_at_once, at)
        .first->second.may_go(at);
}

bool DeskSite::has(const Program &program) const {
    return std::any_of(pages_.begin(), pages_.end(),
                       [&](const auto &page) { return page->is_of(program); });
}

std::size_t DeskSite::count(const std::function<bool(const OpenPage &)> &fits) const {
    return static_cast<std::size_t>(
        std::count_if(pages_.begin(), pages_.end(), [&](const auto &page) { return fits(*page); }));
}

// Whoever has a cookie and no token ends no page that has shown one.
void DeskSite::make_room_to_enter(const Trader &trader) {
    const auto enters = [&](const OpenPage &page) {
        return &page.trader() == &trader && !page.has_shown_token();
    };
    if (count(enters) >= most_pages_of_login) {
        close_idlest(enters, "");
    }
}

void DeskSite::make_room(const Trader &trader) {
    const auto is_page = [](const OpenPage &page) {
        return !page.is_program() && page.has_shown_token();
    };
    const auto is_own = [&](const OpenPage &page) {
        return is_page(page) && &page.trader() == &trader;
    };
    if (count(is_own) >= most_pages_of_login) {
        close_idlest(is_own,
                     "a login may have " + std::to_string(most_pages_of_login) + " pages open.");
    } else if (count(is_page) >= most_pages) {
        close_idlest(is_page, "the desk may have " + std::to_string(most_pages) + " pages open.");
    }
}

// It counts no more from now on, however long its browser takes to hear of it.
void DeskSite::close_idlest(const std::function<bool(const OpenPage &)> &may_close,
                            const std::string &why) {
    std::shared_ptr<OpenPage> idlest;
    for (const std::shared_ptr<OpenPage> &page : pages_) {
        if (may_close(*page) && (!idlest || page->used() < idlest->used())) {
            idlest = page;
        }
    }
    if (!idlest) {
        return;
    }
    pages_.erase(idlest);
    idlest->end("This page was closed for a new one: " + why);
}

void DeskSite::lock_idle() {
    for (const std::string &login : logins_.lock()) {
        events_.tell("Locked: " + login + ", unused for " + for_minutes(*config_.lock_after));
    }
}

void DeskSite::tick() {
    lock_idle();
    desk_.tick();
    const std::vector<std::shared_ptr<OpenPage>> pages(pages_.begin(), pages_.end());
    for (const std::shared_ptr<OpenPage> &page : pages) {
        page->tick();
    }
}

void DeskSite::tell(const json &message) {
    if (pages_.empty()) {
        return;
    }
    const std::shared_ptr<const std::string> text = text_of(message);
    for (const std::shared_ptr<OpenPage> &page : pages_) {
        page->tell(text);
    }
}

void DeskSite::tell_all_anew() {
    for (const std::shared_ptr<OpenPage> &page : pages_) {
        page->tell_all();
    }
}

} // namespace desk
