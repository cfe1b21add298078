#include "sample_dealer.h"

#include <algorithm>

namespace sample {

namespace tag = desk::tag;
using namespace std::chrono_literals;

namespace {

constexpr int always_quoted = 2; // of the first requests

} // namespace

void SampleDealer::take(const desk::Message &message) {
    const std::string request = message.get(tag::quote_req_id);
    if (message.type() == "R") {
        open_[request] = Shown{message.get(tag::security_id), message.get(tag::side) == "1", ""};
        consider(request);
    } else if (message.type() == "AJ") {
        open_.erase(request);
    }
}

// The first ones are quoted, so that whoever tries the venue sees an answer. Of twenty others one
// hears nothing, two a decline, and the rest a quote; of these two have a validity, four are
// replaced, and one is withdrawn.
void SampleDealer::consider(const std::string &request) {
    const int what = considered_++ < always_quoted ? 6 + roll(10) : roll(20);
    const auto delay = 800ms + std::chrono::milliseconds(roll(1700));
    if (what == 0) {
        return;
    }
    if (what <= 2) {
        return after(delay, [this, request] {
            send("AG", {{tag::quote_req_id, request}, {tag::request_reason, "10"}});
        });
    }
    after(delay, [this, request, what] { quote(request, what <= 4 ? 20s : 0s); });
    const auto later = delay + 4s + std::chrono::milliseconds(roll(6000));
    if (what >= 16) {
        after(later, [this, request] { quote(request, 0s); });
    } else if (what == 5) {
        after(later, [this, request] { withdraw(request); });
    }
}

// Some 32nds off what the bond is worth, on its grid and in its band.
void SampleDealer::quote(const std::string &request, std::chrono::seconds valid_for) {
    const auto found = open_.find(request);
    const desk::Bond *bond =
        found == open_.end() ? nullptr : settings().market.bond(found->second.bond);
    if (bond == nullptr) {
        return;
    }
    const int step = 256 / bond->grid;
    const int spread = 8 + 4 * roll(6);
    const int exact = worth(*bond) + (found->second.is_bought ? spread : -spread);
    const desk::Price price =
        std::clamp(desk::Price{exact / step * step}, bond->band.low, bond->band.high);
    found->second.quote = name('Q');
    std::vector<desk::FixField> fields{
        {tag::quote_req_id, request},
        {tag::quote_id, found->second.quote},
        {tag::security_id, bond->id},
        {tag::id_source, "4"},
        {found->second.is_bought ? tag::offer : tag::bid, desk::text_of(price)}};
    if (valid_for > 0s) {
        fields.emplace_back(tag::valid_until, desk::fix_text(desk::now() + valid_for));
    }
    send("S", fields);
}

void SampleDealer::withdraw(const std::string &request) {
    const auto found = open_.find(request);
    if (found != open_.end() && !found->second.quote.empty()) {
        send("Z", {{tag::quote_id, found->second.quote}, {tag::cancel_type, "5"}});
    }
}

} // namespace sample
