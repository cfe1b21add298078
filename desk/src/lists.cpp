#include "lists.h"

#include <algorithm>
#include <charconv>
#include <utility>

#include <nlohmann/json.hpp>

namespace desk {

using nlohmann::json;

namespace {

const char *name_of(Side side) {
    return side == Side::buy ? "buy" : "sell";
}

const char *name_of(ListLine::State state) {
    switch (state) {
    case ListLine::State::waiting:
        return "waiting";
    case ListLine::State::sent:
        return "sent";
    case ListLine::State::refused:
        return "refused";
    case ListLine::State::stopped:
        return "stopped";
    }
    return "";
}

ListLine line_in(const json &text) {
    ListLine line;
    line.bond = text.at("bond").get<std::string>();
    line.side = text.at("side") == "buy" ? Side::buy : Side::sell;
    line.quantity = text.at("quantity").get<Quantity>();
    return line;
}

AskedList list_in(const json &note, Moment at) {
    AskedList list;
    list.id = note.at("list").get<std::string>();
    list.name = note.at("name").get<std::string>();
    list.login = note.at("login").get<std::string>();
    list.trader = note.at("trader").get<std::string>();
    list.made = at;
    list.within = std::chrono::seconds(note.at("seconds").get<std::int64_t>());
    list.dealers = note.at("dealers").get<std::vector<std::string>>();
    for (const json &line : note.at("lines")) {
        list.lines.push_back(line_in(line));
    }
    return list;
}

void stop(AskedList &list, const std::string &why) {
    for (ListLine &line : list.lines) {
        if (line.state == ListLine::State::waiting) {
            line.state = ListLine::State::stopped;
            line.why = why;
        }
    }
}

// What a journal says of a line that the list has not is of a later version of the desk.
void refuse(AskedList &list, std::size_t line, const std::string &why) {
    if (line < list.lines.size()) {
        list.lines[line].state = ListLine::State::refused;
        list.lines[line].why = why;
    }
}

json terms_of(const ListLine &line) {
    return {{"bond", line.bond}, {"side", name_of(line.side)}, {"quantity", line.quantity}};
}

} // namespace

void Lists::apply(const json &note, Moment at) {
    const std::string what = note.at("do");
    if (what == "ask list") {
        AskedList list = list_in(note, at);
        changed_.insert(list.id);
        lists_.push_back(std::move(list));
        return;
    }
    AskedList *list = find(note.at("list"));
    if (list == nullptr) {
        return;
    }
    changed_.insert(list->id);
    if (what == "stop list") {
        stop(*list, note.at("why"));
    } else if (what == "refuse line") {
        refuse(*list, note.at("line"), note.at("why"));
    }
}

void Lists::sent(const std::string &request) {
    if (const auto place = place_of(request)) {
        find(place->list->id)->lines[place->line].state = ListLine::State::sent;
        changed_.insert(place->list->id);
    }
}

AskedList *Lists::find(const std::string &id) {
    const auto found = std::find_if(lists_.begin(), lists_.end(),
                                    [&](const AskedList &one) { return one.id == id; });
    return found == lists_.end() ? nullptr : &*found;
}

const AskedList *Lists::named(const std::string &id) const {
    const auto found = std::find_if(lists_.begin(), lists_.end(),
                                    [&](const AskedList &one) { return one.id == id; });
    return found == lists_.end() ? nullptr : &*found;
}

std::optional<ListPlace> Lists::place_of(const std::string &request) const {
    const std::size_t dash = request.rfind('-');
    const AskedList *list = dash == std::string::npos ? nullptr : named(request.substr(0, dash));
    if (list == nullptr) {
        return {};
    }
    std::size_t line = 0;
    const char *end = request.data() + request.size();
    const auto [stopped, fault] = std::from_chars(request.data() + dash + 1, end, line);
    const bool is_line = fault == std::errc() && stopped == end && line < list->lines.size();
    return is_line ? std::optional(ListPlace{list, line}) : std::nullopt;
}

std::optional<ListPlace> Lists::next(const std::set<std::string> &but) const {
    for (const AskedList &list : lists_) {
        for (std::size_t line = 0; line < list.lines.size(); ++line) {
            if (list.lines[line].state == ListLine::State::waiting &&
                !but.contains(list.request_of(line))) {
                return ListPlace{&list, line};
            }
        }
    }
    return {};
}

std::set<std::string> Lists::take_changed() {
    return std::exchange(changed_, {});
}

json view_of(const AskedList &list) {
    json lines = json::array();
    for (std::size_t at = 0; at < list.lines.size(); ++at) {
        const ListLine &line = list.lines[at];
        json view = terms_of(line);
        view["request"] = line.state == ListLine::State::sent ? list.request_of(at) : "";
        view["state"] = name_of(line.state);
        view["why"] = line.why;
        lines.push_back(std::move(view));
    }
    return {{"id", list.id},
            {"name", list.name},
            {"trader", list.trader},
            {"made", milliseconds_of(list.made)},
            {"seconds", list.within.count()},
            {"dealers", list.dealers},
            {"lines", std::move(lines)}};
}

json note_of(const AskedList &list) {
    json lines = json::array();
    for (const ListLine &line : list.lines) {
        lines.push_back(terms_of(line));
    }
    return {{"do", "ask list"},        {"list", list.id},
            {"name", list.name},       {"seconds", list.within.count()},
            {"dealers", list.dealers}, {"lines", std::move(lines)}};
}

} // namespace desk
