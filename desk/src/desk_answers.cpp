// Answers what a page asks to be told.
#include "desk.h"

#include "valued_views.h"

#include <algorithm>
#include <exception>
#include <iterator>
#include <utility>

#include <boost/asio/post.hpp>
#include <nlohmann/json.hpp>

namespace desk {

using nlohmann::json;

namespace {

constexpr Quantity most_quantity = 1'000'000'000'000; // of one request at a venue
constexpr std::size_t most_of_day = 4096;             // requests of one answer
constexpr std::size_t most_found = 200;
constexpr std::size_t requests_a_part = 32;
constexpr std::size_t most_looks = 16; // that wait for the disk
constexpr std::size_t most_looks_of_one = 4;

json part_of(const std::string &date, std::vector<json> requests, bool is_last) {
    return {
        {"t", "day"}, {"date", date}, {"requests", json(std::move(requests))}, {"last", is_last}};
}

// Messages of one day's requests; none where there is none.
std::vector<json> parts_of(const std::string &date, std::vector<json> requests) {
    std::vector<json> parts;
    std::vector<json> part;
    for (json &request : requests) {
        part.push_back(std::move(request));
        if (part.size() == requests_a_part) {
            parts.push_back(part_of(date, std::exchange(part, {}), false));
        }
    }
    if (!part.empty()) {
        parts.push_back(part_of(date, std::move(part), false));
    }
    return parts;
}

} // namespace

void Desk::answer(const Trader &trader, const Query &query, const Hear &hear) {
    if (const auto *value = std::get_if<query::Value>(&query)) {
        answer(*value, hear);
    } else if (const auto *day = std::get_if<query::OneDay>(&query)) {
        answer(trader, *day, hear);
    } else {
        look(trader, days_, std::get<query::Find>(query).find, most_found, hear);
    }
}

void Desk::answer(const query::Value &asked, const Hear &hear) {
    const Bond *bond = config_.market.bond(asked.bond);
    const BondTerms *terms = values_.terms(asked.bond);
    if (bond == nullptr || terms == nullptr) {
        return hear({{}, "The desk has no data of this bond."});
    }
    if (asked.quantity < 1 || asked.quantity > most_quantity) {
        return hear({{}, "The quantity is out of range."});
    }
    const Date today = day_of(now());
    const std::optional<BondValue> value =
        asked.price ? values_.of_price(bond->id, *asked.price, today)
                    : values_.of_yield(bond->id, *asked.yield, bond->grid, today);
    if (!value) {
        return hear(
            {{},
             asked.price ? "This price has no yield." : "No price of the venue has this yield."});
    }
    json message = desk::view_of(*value, *terms, asked.quantity);
    message["t"] = "priced";
    hear({std::move(message), ""});
}

void Desk::answer(const Trader &trader, const query::OneDay &day, const Hear &hear) {
    if (std::find(days_.begin(), days_.end(), day.date) == days_.end()) {
        return hear({{}, "The desk has no journal of this day."});
    }
    look(trader, {day.date}, day.find, most_of_day, hear);
}

// Whoever looks without end leaves room for the others.
void Desk::look(const Trader &trader, std::vector<std::string> days, const std::string &find,
                std::size_t most, const Hear &hear) {
    if (looks_.size() >= most_looks || looks_.count(&trader) >= most_looks_of_one) {
        return hear({{}, "Many look at earlier days just now: try again."});
    }
    looks_.insert(&trader);
    boost::asio::post(archive_thread_, [this, &trader, days = std::move(days), find, most, hear] {
        std::vector<json> parts = found_in(days, find, most);
        boost::asio::post(io_, [this, &trader, parts = std::move(parts), hear] {
            looks_.erase(looks_.find(&trader));
            for (const json &part : parts) {
                hear({part, ""});
            }
        });
    });
}

// By the archive's thread.
std::vector<json> Desk::found_in(const std::vector<std::string> &days, const std::string &find,
                                 std::size_t most) const {
    std::vector<json> parts;
    std::string why;
    for (auto day = days.begin(); day != days.end() && most > 0 && !is_over_; ++day) {
        try {
            std::vector<json> found = archive_.requests(*day, find, most);
            most -= found.size();
            std::ranges::move(parts_of(*day, std::move(found)), std::back_inserter(parts));
        } catch (const std::exception &fault) {
            why = fault.what();
        }
    }
    parts.push_back(part_of(days.empty() ? "" : days.front(), {}, true));
    parts.back()["why"] = why;
    return parts;
}

} // namespace desk
