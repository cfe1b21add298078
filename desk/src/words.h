// Says in words why the venue refused something: those of Text (58) if it gave any, and otherwise
// what the code of its answer can mean.
#ifndef DESK_WORDS_H
#define DESK_WORDS_H

#include "message.h"

#include <string>

namespace desk {

// A QuoteRequestReject (35=AG) to a request, by 658.
std::string request_refusal(const Message &answer);
// A QuoteStatusReport (35=AI) with 297=5 or 9, by 300.
std::string quote_refusal(const Message &answer);
std::string cancel_refusal(const Message &answer);
std::string decline_refusal(const Message &answer);
// To a hit or a pass; 58 has the room's name for it, whose words are the desk's.
std::string response_refusal(const Message &answer);
// A BusinessMessageReject (35=j): what the venue did not take, though it is well formed.
std::string not_taken_words(const Message &reject);
// A Reject (35=3): the field of 371 and the reason of 373.
std::string reject_words(const Message &reject);

} // namespace desk

#endif
