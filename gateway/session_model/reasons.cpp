#include "reasons.h"

namespace session_model::reasons {

std::string too_low(std::uint64_t expected) {
    return "MsgSeqNum too low, expecting " + std::to_string(expected);
}

std::string other_version(Text version) {
    return "BeginString is " + std::string(version);
}

} // namespace session_model::reasons
