// Takes lists of requests, whole or not at all, and asks their lines at the pace of the firm's
// limits.
#include "checks.h"
#include "desk.h"

#include <algorithm>

#include <boost/asio/post.hpp>
#include <nlohmann/json.hpp>

namespace desk {

using nlohmann::json;

namespace {

constexpr int lines_a_second = 5;
constexpr std::size_t most_lists = 32; // of a day, in which lines wait

} // namespace

Lists *Desk::lists() {
    auto *day = dynamic_cast<InvestorDay *>(day_.get());
    return day == nullptr ? nullptr : &day->lists();
}

std::string Desk::act(const Trader &trader, const command::AskList &ask) {
    const auto &day = static_cast<const InvestorDay &>(*day_);
    const auto waiting =
        std::count_if(lists()->all().begin(), lists()->all().end(), [](const AskedList &list) {
            return std::any_of(list.lines.begin(), list.lines.end(), [](const ListLine &line) {
                return line.state == ListLine::State::waiting;
            });
        });
    if (static_cast<std::size_t>(waiting) >= most_lists) {
        return "The desk takes no more lists for now: stop one first.";
    }
    std::string why = why_not(ask, trader, config_.market, day, now());
    if (why.empty()) {
        AskedList list;
        list.id = identifiers_.next('L');
        list.name = ask.name;
        list.within = ask.within;
        list.dealers = ask.dealers;
        list.lines = ask.lines;
        note(trader, note_of(list));
    }
    return why;
}

std::string Desk::act(const Trader &trader, const command::StopList &stop) {
    if (lists()->named(stop.list) == nullptr) {
        return "There is no such list.";
    }
    note(trader,
         {{"do", "stop list"}, {"list", stop.list}, {"why", "Stopped by " + trader.name + "."}});
    return {};
}

// Into the journal, for nobody who waits for an answer.
void Desk::note_later(json text) {
    boost::asio::post(sender_,
                      [this, text = text.dump(-1, ' ', false, json::error_handler_t::replace)] {
                          record_.note(text);
                      });
}

void Desk::stop_lists(const std::string &why) {
    if (lists() == nullptr) {
        return;
    }
    for (const AskedList &list : lists()->all()) {
        const bool waits =
            std::any_of(list.lines.begin(), list.lines.end(), [](const ListLine &line) {
                return line.state == ListLine::State::waiting;
            });
        if (waits) {
            note_later({{"do", "stop list"},
                        {"list", list.id},
                        {"login", ""},
                        {"trader", ""},
                        {"why", why}});
        }
    }
}

// Whatever does not go out within seconds is not news any more: it stays where it is.
void Desk::ask_lists() {
    if (lists() == nullptr) {
        return;
    }
    std::erase_if(asking_, [this](const std::string &request) {
        const std::optional<ListPlace> place = lists()->place_of(request);
        return !place || place->list->lines[place->line].state != ListLine::State::waiting;
    });
    if (!lists()->next(asking_)) {
        return;
    }
    if (!is_on_) {
        return stop_lists("The venue is not connected: nothing more of it is asked.");
    }
    for (int count = 0; count < lines_a_second; ++count) {
        const std::optional<ListPlace> place = lists()->next(asking_);
        const auto taken = day_->usage().open + static_cast<int>(asking_.size());
        if (!place || taken >= config_.market.limits.open) {
            return;
        }
        ask_line(*place);
    }
}

void Desk::ask_line(const ListPlace &place) {
    const AskedList &list = *place.list;
    const ListLine &line = list.lines[place.line];
    const std::string request = list.request_of(place.line);
    asking_.insert(request);
    // What is refused is asked no more, also before that stands in the journal.
    const auto refuse = [this, id = list.id, at = place.line, request](const std::string &why) {
        if (why.empty()) {
            asking_.erase(request);
        } else {
            note_later({{"do", "refuse line"}, {"list", id}, {"line", at}, {"why", why}});
        }
    };
    const auto trader = std::find_if(config_.traders.begin(), config_.traders.end(),
                                     [&](const Trader &one) { return one.login == list.login; });
    if (trader == config_.traders.end()) {
        return refuse("The desk has no trader '" + list.login + "' any more.");
    }
    act(*trader,
        command::Ask{line.bond, line.side, line.quantity, list.within, list.dealers, request},
        refuse);
}

json Desk::view_of_lists(const std::set<std::string> &ids) {
    json all = json::array();
    for (const std::string &id : ids) {
        all.push_back(desk::view_of(*lists()->named(id)));
    }
    return {{"t", "lists"}, {"lists", std::move(all)}};
}

json Desk::all_lists() {
    if (lists() == nullptr) {
        return {};
    }
    std::set<std::string> ids;
    for (const AskedList &list : lists()->all()) {
        ids.insert(list.id);
    }
    return view_of_lists(ids);
}

} // namespace desk
