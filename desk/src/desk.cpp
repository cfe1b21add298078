#include "desk.h"

#include "changes.h"
#include "connection_words.h"
#include "investor_day.h"
#include "valued_views.h"

#include <utility>

#include <boost/asio/post.hpp>
#include <nlohmann/json.hpp>

namespace desk {

using nlohmann::json;

namespace {

constexpr std::size_t requests_a_part = 100;

bool is_binding(const Message &message) {
    const std::string &type = message.type();
    return type == "S" || type == "R" || (type == "AJ" && message.number(tag::response_type) == 1);
}

json market_view(const Market &market, Role role, const BondValues &values) {
    json bonds = json::array();
    for (const Bond &bond : market.bonds) {
        bonds.push_back(view_of(bond, values, day_of(now())));
    }
    return {{"role", role == Role::dealer ? "dealer" : "investor"},
            {"bonds", bonds},
            {"dealers", market.dealers},
            {"limits",
             {{"exposure", market.limits.exposure},
              {"quotes", market.limits.quotes},
              {"quantity", market.limits.quantity},
              {"requests", market.limits.requests},
              {"open", market.limits.open}}}};
}

// Those whom a colleague may hand something to.
json colleagues(const std::vector<Trader> &traders) {
    json all = json::array();
    for (const Trader &one : traders) {
        if (one.may_act) {
            all.push_back({{"login", one.login}, {"trader", one.name}});
        }
    }
    return all;
}

} // namespace

Desk::Desk(boost::asio::io_context &io, const Config &config, Events &events, int first_number)
    : io_(io), config_(config), events_(events), values_(config.bonds),
      groups_(config.data + "/groups.json"), references_(config.data + "/references.json"),
      limits_(config.data + "/limits.json"),
      programs_(config.programs, config.data + "/programs.json"), identifiers_(now()),
      day_(Day::of(config.role)), record_(config.data, [this] { wake(); }), since_(now()),
      archive_(config.data, config.role, config.market, values_) {
    days_ = archive_.days(record_.date());
    record_.skip_to(first_number);
    FixListener &listener = *this;
    fix_ = std::make_unique<FixSession>(config.fix, record_, listener);
    apply_all();
}

Desk::~Desk() = default;

void Desk::start(Audience &audience) {
    audience_ = &audience;
    stop_lists("The desk was started anew: nothing more of it is asked.");
    fix_->start();
}

void Desk::stop() {
    record_.let_through();
    is_over_ = true;
    archive_thread_.join();
    sender_.join();
    fix_->stop();
}

// What follows is called by QuickFIX's threads, or by this one through QuickFIX.

void Desk::wake() {
    boost::asio::post(io_, [this] { apply_all(); });
}

void Desk::received(const std::string &raw) {
    record_.received(raw);
}

bool Desk::may_leave(const std::string &raw) {
    return may_send_again(raw);
}

// A message for which the disk took too long, or that the connection lost, is not news any more:
// what binds the firm is delivered within seconds or never. A cancel only ever unbinds it.
bool Desk::may_send_again(const std::string &raw) {
    const Message message(raw);
    const Moment first = message.moment(tag::orig_sending_time)
                             .value_or(message.moment(tag::sending_time).value_or(Moment()));
    if (!is_binding(message) || now() - first <= config_.deliver_within) {
        return true;
    }
    record_.undelivered(static_cast<int>(message.number(tag::msg_seq_num)));
    return false;
}

void Desk::logged_on(bool is_on) {
    boost::asio::post(io_, [this, is_on] {
        is_on_ = is_on;
        since_ = now();
        cause_.clear();
        tell_changes();
    });
}

void Desk::event(const std::string &text) {
    events_.tell(text);
    boost::asio::post(io_, [this, text] {
        const std::string words = connection_words(text);
        if (!is_on_ && !words.empty() && words != cause_) {
            cause_ = words;
            tell_changes();
        }
    });
}

// From here on all is on the thread of io_.

void Desk::apply_all() {
    bool is_anew = false;
    for (const Happening &happening : record_.take()) {
        apply(happening, is_anew);
    }
    if (audience_ == nullptr) {
        day_->take_changed();
    } else if (is_anew) {
        day_->take_changed();
        audience_->tell_all_anew();
    } else {
        tell_changes();
    }
}

void Desk::apply(const Happening &happening, bool &is_anew) {
    if (happening) {
        day_->apply(*happening);
    } else {
        day_ = Day::of(config_.role);
        days_ = archive_.days(record_.date());
        told_.clear();
        is_anew = true;
    }
}

void Desk::tell_changes() {
    if (audience_ == nullptr) {
        return;
    }
    const std::set<std::string> changed = day_->take_changed();
    if (!changed.empty()) {
        tell_requests(changed);
    }
    if (const std::set<std::string> lists =
            this->lists() == nullptr ? std::set<std::string>() : this->lists()->take_changed();
        !lists.empty()) {
        audience_->tell(view_of_lists(lists));
    }
    audience_->tell(session());
}

// A new one as it is, and of one that pages have what changed.
void Desk::tell_requests(const std::set<std::string> &changed) {
    json requests = json::array();
    json changes = json::array();
    for (const std::string &request : changed) {
        json view = this->view(request);
        const auto before = told_.find(request);
        if (before == told_.end()) {
            requests.push_back(view);
        } else {
            changes.push_back(change_of(before->second, view));
        }
        told_[request] = std::move(view);
    }
    if (!requests.empty()) {
        audience_->tell({{"t", "requests"}, {"requests", std::move(requests)}});
    }
    if (!changes.empty()) {
        audience_->tell({{"t", "changes"}, {"changes", std::move(changes)}});
    }
}

json Desk::view(const std::string &request) const {
    json view = day_->view(request);
    add_values(view, values_, day_of(Moment(std::chrono::milliseconds(view.at("made")))));
    mark_program(view);
    mark_list(view);
    for (json &quote : view.at("quotes")) {
        mark_program(quote);
    }
    return view;
}

// A line of a list says which.
void Desk::mark_list(json &view) const {
    const auto *day = dynamic_cast<const InvestorDay *>(day_.get());
    const auto place = day == nullptr ? std::nullopt : day->lists().place_of(view.at("id"));
    if (place) {
        view["list"] = {{"id", place->list->id}, {"line", place->line}};
    }
}

// What a program of the firm asked or quoted says so.
void Desk::mark_program(json &made) const {
    const auto trader = made.find("trader");
    if (trader != made.end() && programs_.named(trader->get<std::string>()) != nullptr) {
        made["program"] = *trader;
    }
}

json Desk::session() const {
    const Usage &usage = day_->usage();
    return {{"t", "session"},
            {"now", milliseconds_of(now())},
            {"on", is_on_},
            {"since", milliseconds_of(since_)},
            {"cause", cause_},
            {"clock", day_->clock_offset().count()},
            {"alarm", day_->alarm()},
            {"notice", day_->notice() ? json{{"at", milliseconds_of(day_->notice()->at)},
                                             {"text", day_->notice()->text},
                                             {"refusal", day_->notice()->is_refusal}}
                                      : json()},
            {"exposure", usage.exposure},
            {"accepted", usage.accepted},
            {"open", usage.open}};
}

json Desk::hello(const Trader &trader) const {
    return {{"t", "hello"},
            {"now", milliseconds_of(now())},
            {"date", record_.date()},
            {"firm", config_.firm},
            {"banner", config_.banner},
            {"trader", view_of(trader)},
            {"days", days_},
            {"mostLines", config_.role == Role::investor ? most_lines : 0},
            {"traders", colleagues(config_.traders)},
            {"groups", groups_.of(trader.login)},
            {"market", market_view(config_.market, config_.role, values_)},
            {"deliverWithin", config_.deliver_within.count()},
            {"locksAfter", config_.lock_after ? json(config_.lock_after->count()) : json()},
            {"session", session()}};
}

std::vector<json> Desk::requests() const {
    std::vector<json> parts;
    json part = json::array();
    for (const std::string &request : day_->requests()) {
        part.push_back(view(request));
        if (part.size() == requests_a_part) {
            parts.push_back({{"t", "requests"}, {"requests", std::exchange(part, json::array())}});
        }
    }
    parts.push_back({{"t", "requests"}, {"requests", std::move(part)}, {"last", true}});
    return parts;
}

} // namespace desk
