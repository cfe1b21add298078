#include "incoming.h"

#include "cutter.h"

namespace session_model {

namespace {

std::optional<Fault> value_fault(std::uint32_t tag, Text value) {
    if (value.empty()) {
        return Fault{tag, reason::NoValue};
    }
    const bool is_right = tag == tag::TestReqID     ? true
                          : tag == tag::GapFillFlag ? value == "Y" || value == "N"
                                                    : number_in(value).has_value();
    return is_right ? std::nullopt : std::optional(Fault{tag, reason::WrongFormat});
}

std::optional<Fault> first_value_fault(const Fields &fields) {
    for (const std::uint32_t tag :
         {tag::BeginSeqNo, tag::EndSeqNo, tag::NewSeqNo, tag::TestReqID, tag::GapFillFlag}) {
        const std::optional<Text> value = fields.value(tag);
        if (!value) {
            continue;
        }
        if (const std::optional<Fault> fault = value_fault(tag, *value)) {
            return fault;
        }
    }
    return std::nullopt;
}

bool is_name(std::optional<Text> text) {
    constexpr std::size_t MOST_NAME = 1'024;
    return text && !text->empty() && text->size() <= MOST_NAME;
}

} // namespace

Incoming read_incoming(Text bytes) {
    const Front front = front_of(bytes);
    Incoming message;
    message.version = front.version;
    if (front.kind == Front::Kind::too_long) {
        message.kind = Incoming::Kind::too_long;
        const std::size_t header = static_cast<std::size_t>(front.body.data() - bytes.data());
        message.fields = Fields::of_beginning(bytes.substr(header, MOST_MESSAGE - header));
        return message;
    }
    if (front.kind != Front::Kind::whole || front.length != bytes.size() || !front.is_sum_right) {
        return message;
    }
    message.kind =
        front.version == "FIXT.1.1" ? Incoming::Kind::message : Incoming::Kind::other_version;
    message.body = front.body;
    message.length = front.length;
    message.fields = Fields::of_body(front.body);
    return message;
}

std::optional<Fault> fault_of(const Incoming &message) {
    if (const std::optional<Fault> fault = form_fault(message.body, message.length)) {
        return fault;
    }
    return first_value_fault(message.fields);
}

bool is_logon(const Incoming &message) {
    return message.kind == Incoming::Kind::message && message.type() == "A" &&
           !message.fields.is_any_twice() && !fault_of(message) &&
           is_name(message.fields.value(tag::SenderCompID)) &&
           is_name(message.fields.value(tag::TargetCompID)) && message.number().has_value();
}

} // namespace session_model
