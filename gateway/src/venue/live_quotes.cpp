#include "venue/live_quotes.h"

#include "common/frame.h"

namespace gateway {

// docs/FORMATS.md, "Written messages": of what a dealer is told, a report with 131 and 117 answers
// its quote, one with 117 alone says that a quote is gone or lifted, and a QuoteResponse is the
// notice of a request. An investor's report with both names its hit (693) or a quote that is gone.
void LiveQuotes::was_given(std::string_view line, const std::string &firm,
                           const GivenFields &message) {
    const std::string_view quote = message.quote;
    const std::string_view request = message.request;
    const std::string_view status = message.status;
    const std::lock_guard lock(mutex_);
    if (message.type == "AJ") {
        std::erase_if(live_[firm], [&](const Live &each) { return each.request == request; });
    } else if (message.type != "AI" || quote.empty() || !message.response.empty()) {
        return;
    } else if (!request.empty() && status == "0") {
        std::erase_if(live_[firm], [&](const Live &each) { return each.request == request; });
        const std::string sent = frame_of_line(line);
        live_[firm].push_back(
            {std::string(quote), std::string(request), std::string(value_in(sent, "50"))});
    } else if (request.empty() && (status == "17" || message.reason == "4")) {
        std::erase_if(live_[firm], [&](const Live &each) { return each.quote == quote; });
    }
}

std::vector<LiveQuotes::Live> LiveQuotes::of(const std::string &firm) const {
    const std::lock_guard lock(mutex_);
    const auto found = live_.find(firm);
    return found == live_.end() ? std::vector<Live>{} : found->second;
}

} // namespace gateway
