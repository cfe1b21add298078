#include "trader_limits.h"

#include "file_store.h"

#include <nlohmann/json.hpp>

namespace desk {

using nlohmann::json;

namespace {

json view_of(const std::optional<Quantity> &most) {
    return most ? json(*most) : json();
}

std::optional<Quantity> limit_in(const json &text, const char *key) {
    const json &value = text.at(key);
    return value.is_null() ? std::nullopt : std::optional(value.get<Quantity>());
}

} // namespace

TraderLimits::TraderLimits(std::string path) : path_(std::move(path)) {
    read_each(path_, [this](const std::string &login, const json &one) {
        limits_[login] = {limit_in(one, "quantity"), limit_in(one, "exposure")};
    });
}

Trader TraderLimits::applied(const Trader &trader) const {
    Trader now = trader;
    const auto found = limits_.find(trader.login);
    if (found != limits_.end()) {
        now.quantity = found->second.quantity;
        now.exposure = found->second.exposure;
    }
    return now;
}

std::function<std::string()> TraderLimits::writer() const {
    json text = json::object();
    for (const auto &[login, one] : limits_) {
        text[login] = {{"quantity", view_of(one.quantity)}, {"exposure", view_of(one.exposure)}};
    }
    return writer_of(path_, std::move(text));
}

} // namespace desk
