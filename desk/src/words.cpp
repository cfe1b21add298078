#include "words.h"

#include <map>
#include <string_view>

namespace desk {

namespace {

using Words = std::map<std::string, std::string, std::less<>>;

// The names by which a hit or a pass is refused.
const Words &response_rules() {
    static const Words words{
        {"NotOpen", "the request has ended, or its dealers are still being shown it"},
        {"Deadline", "the request's deadline has come"},
        {"Gone", "the quote was replaced or withdrawn"},
        {"Withdrawn", "the dealer withdrew the quote first"},
        {"Expired", "the quote's validity is over"}};
    return words;
}

// The venue's words in Text (58); what the code means where it gives none.
std::string words_of(const Message &answer, std::string_view by_code) {
    const std::string &words = answer.get(tag::text);
    return words.empty() ? std::string(by_code) : words;
}

std::string_view request_code(std::int64_t code) {
    switch (code) {
    case 1:
        return "the venue does not have this bond";
    case 3:
        return "a limit of your firm: the quantity, the day's requests, or how many are open";
    case 4:
        return "the deadline had passed when the request came";
    default:
        return "the list of dealers is at fault, or the request's name was used before";
    }
}

std::string_view quote_code(std::int64_t code) {
    switch (code) {
    case 1:
        return "another bond than the request's";
    case 3:
        return "a limit of your firm: its exposure, or the day's quotes";
    case 4:
        return "too late: the request has ended, or your quote was hit";
    case 6:
        return "the quote's name was used before";
    case 8:
        return "the price is outside the bond's band, off its grid, out of range, or of the wrong "
               "side";
    default:
        return "you declined the request, or the validity was over when the quote came";
    }
}

const std::map<std::int64_t, std::string_view> &names_of_fields() {
    static const std::map<std::int64_t, std::string_view> names{
        {34, "sequence number"}, {35, "type"},         {38, "quantity"}, {48, "bond"},
        {50, "trader"},          {52, "sending time"}, {54, "side"},     {62, "validity"},
        {117, "quote"},          {126, "deadline"},    {131, "request"}, {132, "bid"},
        {133, "offer"},          {448, "dealer"},      {453, "dealers"}, {693, "response"}};
    return names;
}

const std::map<std::int64_t, std::string_view> &session_reasons() {
    static const std::map<std::int64_t, std::string_view> reasons{
        {1, "is missing"},
        {4, "is empty"},
        {5, "is not allowed"},
        {6, "is malformed"},
        {9, "is not this firm's"},
        {10, "is too far from the venue's clock"},
        {11, "is not this firm's to send"},
        {13, "is given twice"},
        {16, "is wrongly counted"}};
    return reasons;
}

} // namespace

std::string request_refusal(const Message &answer) {
    return words_of(answer, request_code(answer.number(tag::request_reason)));
}

std::string quote_refusal(const Message &answer) {
    return words_of(answer, quote_code(answer.number(tag::reject_reason)));
}

std::string cancel_refusal(const Message &answer) {
    const bool is_unknown = answer.number(tag::status) == 9;
    const bool is_late = answer.number(tag::reject_reason) == 4;
    return words_of(answer, is_unknown ? "the venue has no such quote of yours"
                            : is_late  ? "too late: the quote was hit, or the request has ended"
                                       : "the quote was withdrawn or replaced before");
}

std::string decline_refusal(const Message &answer) {
    return words_of(answer, answer.number(tag::reject_reason) == 4
                                ? "too late: the request has ended"
                                : "a quote of yours is live, or you declined it before");
}

std::string response_refusal(const Message &answer) {
    const auto found = response_rules().find(answer.get(tag::text));
    if (found != response_rules().end()) {
        return found->second;
    }
    return words_of(answer, answer.number(tag::status) == 9 ? "the venue does not know it"
                                                            : "the venue gives no reason");
}

std::string not_taken_words(const Message &reject) {
    return words_of(reject, "the venue does not take it now (BusinessMessageReject)");
}

std::string reject_words(const Message &reject) {
    const auto field = names_of_fields().find(reject.number(tag::ref_tag));
    const auto reason = session_reasons().find(reject.number(tag::session_reason));
    const std::string which = field == names_of_fields().end()
                                  ? "field " + reject.get(tag::ref_tag)
                                  : "the " + std::string(field->second);
    return which + " " +
           (reason == session_reasons().end() ? "is at fault" : std::string(reason->second)) +
           " (Reject, 371=" + reject.get(tag::ref_tag) +
           ", 373=" + reject.get(tag::session_reason) + ")";
}

} // namespace desk
