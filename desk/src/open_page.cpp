#include "open_page.h"

#include "command.h"
#include "desk_site.h"

#include <algorithm>
#include <utility>

#include <nlohmann/json.hpp>

namespace desk {

using nlohmann::json;

namespace {

constexpr std::chrono::seconds time_for_token{10};

} // namespace

std::shared_ptr<const std::string> text_of(const json &message) {
    return std::make_shared<const std::string>(
        message.dump(-1, ' ', false, json::error_handler_t::replace));
}

OpenPage::OpenPage(DeskSite &site, const Trader &trader, std::string cookie)
    : site_(site), trader_(trader), program_(nullptr), cookie_(std::move(cookie)), begin_(now()) {}

OpenPage::OpenPage(DeskSite &site, const Program &program)
    : site_(site), trader_(program.acts_as), program_(&program), begin_(now()) {}

void OpenPage::opened(std::shared_ptr<web::Socket> socket) {
    socket_ = std::move(socket);
    if (program_) {
        has_shown_token_ = true;
        tell_all();
        site_.desk().connected(*program_, true);
    }
}

void OpenPage::closed() {
    socket_.reset();
    site_.closed(shared_from_this());
    if (program_ && !site_.has(*program_)) {
        site_.desk().connected(*program_, false);
    }
}

void OpenPage::end() {
    has_shown_token_ = false;
    if (socket_) {
        socket_->close(web::CloseCode::policy);
    }
}

void OpenPage::end(const std::string &why) {
    say({{"t", "closed"}, {"why", why}});
    end();
}

void OpenPage::tick() {
    const bool waits = !has_shown_token_ && begin_ + time_for_token <= now();
    if (waits || (!program_ && site_.logins().trader_of(cookie_) == nullptr)) {
        return end();
    }
    say({{"t", "now"}, {"now", milliseconds_of(now())}}); // it wakes a page that nobody looks at
    tell_limits();
}

void OpenPage::tell_limits() {
    json trader = site_.desk().view_of(trader_);
    if (trader != told_trader_) {
        say({{"t", "trader"}, {"trader", trader}});
        told_trader_ = std::move(trader);
    }
    json limits = trader_.is_admin && !program_ ? site_.desk().limits() : json();
    if (limits != told_limits_) {
        say(limits);
        told_limits_ = std::move(limits);
    }
}

void OpenPage::tell(const std::shared_ptr<const std::string> &text) {
    if (has_shown_token_ && socket_) {
        socket_->send(text);
    }
}

void OpenPage::say(const json &message) {
    tell(text_of(message));
}

void OpenPage::tell_all() {
    say(site_.desk().hello(trader_));
    told_trader_ = site_.desk().view_of(trader_);
    told_limits_ = json();
    tell_limits();
    say(site_.desk().references());
    say(site_.desk().programs());
    if (const json lists = site_.desk().all_lists(); !lists.is_null()) {
        say(lists);
    }
    for (const json &part : site_.desk().requests()) {
        say(part);
    }
}

void OpenPage::heard(std::string_view text) {
    const json message = json::parse(text, nullptr, false);
    if (!message.is_object()) {
        return end();
    }
    has_shown_token_ ? hear_command(message) : hear_token(message);
}

void OpenPage::hear_token(const json &message) {
    const auto token = message.find("token");
    if (token == message.end() || !token->is_string() ||
        !site_.logins().has_token(cookie_, token->get<std::string>())) {
        return end();
    }
    if (!site_.may_enter(trader_)) {
        has_shown_token_ = true;
        return end("This page was not opened: too many of this login were, just now.");
    }
    site_.make_room(trader_);
    has_shown_token_ = true;
    tell_all();
}

void OpenPage::hear_command(const json &message) {
    if (message.contains("here")) { // a key or a press that asks for nothing
        return site_.may_act(trader_) ? uses() : void();
    }
    const std::optional<Command> command = read_command(message);
    const std::optional<Query> query = read_query(message);
    const auto number = message.find("number");
    if ((!command && !query) || number == message.end() || !number->is_number_unsigned()) {
        return end();
    }
    if (!program_ && site_.logins().trader_of(cookie_) != &trader_) {
        return end();
    }
    if (!site_.may_act(trader_)) {
        return answer(*number, "Too many at once: nothing was sent.");
    }
    uses();
    if (query) {
        return site_.desk().answer(
            trader_, *query,
            [self = shared_from_this(), number = number->get<std::uint64_t>()](
                const Desk::Answer &one) { self->answer(number, one); });
    }
    site_.desk().act(trader_, *command,
                     [self = shared_from_this(), number = number->get<std::uint64_t>()](
                         const std::string &why) { self->answer(number, why); });
}

void OpenPage::answer(std::uint64_t number, const std::string &why) {
    say({{"t", "said"}, {"number", number}, {"why", why}});
}

void OpenPage::answer(std::uint64_t number, const Desk::Answer &answer) {
    if (answer.message.is_null()) {
        return this->answer(number, answer.why);
    }
    json message = answer.message;
    message["number"] = number;
    say(message);
}

void OpenPage::uses() {
    used_ = std::chrono::steady_clock::now();
    if (!program_) {
        site_.logins().saw(cookie_);
    }
}

} // namespace desk
