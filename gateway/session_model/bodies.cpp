#include "bodies.h"

namespace session_model {

namespace {

// RefMsgType (372), where the message's is one.
std::string reference_type(const Incoming &message) {
    return is_message_type(message.type()) ? field(372, message.type()) : std::string();
}

} // namespace

Body logon(const LogonAnswer &answer) {
    std::string fields = field(tag::EncryptMethod, 0) + field(tag::HeartBtInt, answer.heartbeat);
    if (answer.is_reset) {
        fields += field(tag::ResetSeqNumFlag, Text("Y"));
    }
    if (answer.expected) {
        fields += field(tag::NextExpectedMsgSeqNum, *answer.expected);
    }
    return {"A", fields + field(tag::DefaultApplVerID, 9)};
}

Body logout(Text reason) {
    return {"5", reason.empty() ? std::string() : field(tag::Text, reason)};
}

Body heartbeat(std::optional<Text> test_id) {
    return {"0", test_id ? field(tag::TestReqID, *test_id) : std::string()};
}

Body test_request(std::uint64_t number) {
    return {"1", field(tag::TestReqID, number)};
}

Body resend_request(std::uint64_t first) {
    return {"2", field(tag::BeginSeqNo, first) + field(tag::EndSeqNo, 0)};
}

Body gap_fill(std::uint64_t next) {
    return {"4", field(tag::GapFillFlag, Text("Y")) + field(tag::NewSeqNo, next)};
}

Body reject_of(const Incoming &message, Fault fault) {
    std::string fields = field(tag::RefSeqNum, message.number().value_or(0));
    if (fault.tag != 0) {
        fields += field(tag::RefTagID, fault.tag);
    }
    fields += reference_type(message);
    return {"3", fields + field(tag::SessionRejectReason, fault.reason)};
}

Body business_reject_of(const Incoming &message, const Denial &denial) {
    std::string fields = field(tag::RefSeqNum, message.number().value_or(0));
    fields += reference_type(message);
    if (!denial.id.empty()) {
        fields += field(tag::BusinessRejectRefID, denial.id);
    }
    fields += field(tag::BusinessRejectReason, denial.reason);
    return {"j", fields + field(tag::Text, denial.text)};
}

} // namespace session_model
