// Says why the session with the venue is down, as far as a trader needs it.
#ifndef DESK_CONNECTION_WORDS_H
#define DESK_CONNECTION_WORDS_H

#include <string>

namespace desk {

// Of an event of the session; an empty text where it tells a trader nothing.
std::string connection_words(const std::string &event);

} // namespace desk

#endif
