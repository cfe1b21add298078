// Keeps the reference prices that the firm sets, and how far a price may be from them, from its
// last price and from its own quotes before the desk asks about it once more.
#ifndef DESK_REFERENCES_H
#define DESK_REFERENCES_H

#include "moment.h"
#include "price.h"

#include <functional>
#include <map>
#include <optional>
#include <string>

#include <nlohmann/json_fwd.hpp>

namespace desk {

struct Reference {
    Price price;
    Moment at;
    std::string by; // a login
};

class References {
  public:
    static constexpr Price usual_distance{256}; // a point

    // Those of the file, where it has this form.
    explicit References(std::string path);

    // Null where the firm has set none.
    const Reference *of(const std::string &bond) const;
    Price distance() const { return distance_; }

    // No price: there is none from now on.
    void set(const std::string &bond, std::optional<Price> price, const std::string &by, Moment at);
    void set_distance(Price distance) { distance_ = distance; }

    // As pages have it.
    nlohmann::json view() const;
    // What keeps all of it over a restart, as of now: it waits for the disk, on any thread, and
    // says in words why not.
    std::function<std::string()> writer() const;

  private:
    const std::string path_;
    std::map<std::string, Reference> references_; // by bond
    Price distance_ = usual_distance;
};

} // namespace desk

#endif
