#include "venue/open_requests.h"

namespace gateway {

// docs/FORMATS.md, "Written messages": an investor is told of its request itself without 117 and
// 453, and a report with 693 is of its hit or its pass.
void OpenRequests::was_given(const std::string &firm, const GivenFields &message) {
    if (message.type != "AI" || !message.dealers.empty()) {
        return;
    }
    const std::string_view status = message.status;
    const bool of_response = !message.response.empty();
    if (message.request.empty() || (!of_response && !message.quote.empty())) {
        return;
    }
    const std::lock_guard lock(mutex_);
    const std::pair key(firm, std::string(message.request));
    if (!of_response && status == "0") {
        const std::string_view moment = message.moment;
        open_[key] = moment.substr(moment.find('-') + 1);
    } else if (status == "7" || (of_response && (status == "0" || status == "11"))) {
        open_.erase(key);
    }
}

bool OpenRequests::are_none() const {
    const std::lock_guard lock(mutex_);
    return open_.empty();
}

std::vector<OpenRequests::Open> OpenRequests::all() const {
    const std::lock_guard lock(mutex_);
    std::vector<Open> all;
    for (const auto &[key, accepted] : open_) {
        all.push_back({key.first, key.second, accepted});
    }
    return all;
}

} // namespace gateway
