#include "connection_words.h"

namespace desk {

std::string connection_words(const std::string &event) {
    const auto has = [&](const char *words) { return event.find(words) != std::string::npos; };
    if (event.rfind("Logged out by the venue", 0) == 0) {
        return event;
    }
    if (has("onnection refused") || has("Connection failed")) {
        return "nothing answers at its address";
    }
    if (has("Timed out") || has("heartbeat")) {
        return "it fell silent";
    }
    if (has("Socket Error") || has("closed")) {
        return "it closed the connection";
    }
    return {};
}

} // namespace desk
