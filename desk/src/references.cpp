#include "references.h"

#include "file_store.h"

#include <nlohmann/json.hpp>

namespace desk {

using nlohmann::json;

References::References(std::string path) : path_(std::move(path)) {
    const json text = read_json(path_);
    try {
        distance_ = Price{text.value("distance", distance_.in_256ths)};
        const json references = text.value("references", json::object());
        for (const auto &[bond, one] : references.items()) {
            references_[bond] = {Price{one.at("price").get<int>()},
                                 Moment(std::chrono::milliseconds(one.at("at"))),
                                 one.at("by").get<std::string>()};
        }
    } catch (const json::exception &) {
        references_.clear(); // a file of another form: they are set anew
    }
}

const Reference *References::of(const std::string &bond) const {
    const auto found = references_.find(bond);
    return found == references_.end() ? nullptr : &found->second;
}

void References::set(const std::string &bond, std::optional<Price> price, const std::string &by,
                     Moment at) {
    if (price) {
        references_[bond] = {*price, at, by};
    } else {
        references_.erase(bond);
    }
}

json References::view() const {
    json references = json::object();
    for (const auto &[bond, one] : references_) {
        references[bond] = {
            {"price", one.price.in_256ths}, {"at", milliseconds_of(one.at)}, {"by", one.by}};
    }
    return {{"t", "references"},
            {"references", std::move(references)},
            {"distance", distance_.in_256ths}};
}

std::function<std::string()> References::writer() const {
    return writer_of(path_, view());
}

} // namespace desk
