#include "wires.h"

#include "fields.h"
#include "writing.h"

#include <algorithm>
#include <array>

namespace session_model {

namespace {

constexpr std::uint32_t APPL_SEQ_NUM = 1181, TRANSACT_TIME = 60, TRADE_ID = 1003, QUOTE_TYPE = 537,
                        QUOTE_STATUS = 297, NO_PARTY_IDS = 453;

constexpr std::size_t MILLISECONDS = 21; // the length of `YYYYMMDD-HH:MM:SS.sss`

// The header of a message of the venue's, in its order.
constexpr std::array<std::uint32_t, 5> VENUE_HEADER = {
    tag::MsgType, tag::SenderCompID, tag::TargetCompID, tag::MsgSeqNum, tag::SendingTime};

// A message of the venue's: its header, and the pieces behind it.
struct Given {
    std::array<Piece, VENUE_HEADER.size()> header;
    Pieces rest{Text()};
};

std::optional<Given> given_in(Text frame) {
    const std::optional<Text> body = frame_body(frame);
    if (!body) {
        return std::nullopt;
    }
    Given given;
    given.rest = Pieces(*body);
    for (std::size_t at = 0; at < VENUE_HEADER.size(); ++at) {
        const std::optional<Piece> piece = given.rest.next();
        if (!piece || piece->tag != VENUE_HEADER[at]) {
            return std::nullopt;
        }
        given.header[at] = *piece;
    }
    return given;
}

// Before which field TransactTime (60) stands; 0 where it stands behind all.
std::uint32_t field_behind_time(Text type) {
    return type == "S" ? QUOTE_TYPE : type == "AI" ? QUOTE_STATUS : type == "R" ? NO_PARTY_IDS : 0;
}

void add(std::string &body, Text text) {
    body += text;
    body += SOH;
}

// The fields behind the venue's header, with TransactTime (60) and a Reject's RefSeqNum (45).
std::string rest_on_wire(Given given, std::uint64_t reference) {
    const Text type = given.header[0].value;
    const std::string time = field(TRANSACT_TIME, given.header[4].value);
    const std::uint32_t behind = field_behind_time(type);
    std::string body;
    bool has_time = false;
    while (const std::optional<Piece> piece = given.rest.next()) {
        if (behind != 0 && piece->tag == behind && !has_time) {
            body += time;
            has_time = true;
        }
        if (type == "3" && piece->tag == tag::RefSeqNum && reference != 0) {
            body += field(tag::RefSeqNum, reference);
        } else {
            add(body, piece->text);
        }
    }
    return has_time ? body : body + time;
}

bool has_field(Given given, std::uint32_t tag) {
    while (const std::optional<Piece> piece = given.rest.next()) {
        if (piece->tag == tag) {
            return true;
        }
    }
    return false;
}

// Whether it has none of the fields that the wire adds, and a firm may be told what is to be told.
bool may_be_added(const Given &given, const Beside &beside) {
    if (has_field(given, APPL_SEQ_NUM) || has_field(given, TRANSACT_TIME)) {
        return false;
    }
    if (beside.tag == 0) {
        return true;
    }
    return (beside.tag == tag::Text || beside.tag == TRADE_ID) && !beside.text.empty() &&
           beside.text.find(SOH) == Text::npos && !has_field(given, beside.tag);
}

// The body of a message that the session took: its length and its sum are not tested again.
std::optional<Text> taken_body(Text bytes) {
    constexpr Text BEGINNING = "8=FIXT.1.1\x01"
                               "9=";
    constexpr std::size_t TRAILER = 7; // `10=`, three digits, SOH
    const std::size_t length = bytes.find(SOH, BEGINNING.size());
    if (bytes.substr(0, BEGINNING.size()) != BEGINNING || length == Text::npos) {
        return std::nullopt;
    }
    const Text behind = bytes.substr(length + 1);
    const Text body = behind.substr(0, behind.size() - std::min(behind.size(), TRAILER));
    return has_lawful_fields(body) ? std::optional(body) : std::nullopt;
}

bool is_left_out(std::uint32_t tag) {
    return tag == tag::PossDupFlag || tag == tag::PossResend || tag == tag::OrigSendingTime;
}

} // namespace

std::optional<std::string> to_wire(Text frame, std::uint32_t number, std::uint64_t reference,
                                   const Beside &beside) {
    const std::optional<Given> given = given_in(frame);
    if (!given || given->header[3].value != std::to_string(number) ||
        !may_be_added(*given, beside)) {
        return std::nullopt;
    }
    std::string fields = field(APPL_SEQ_NUM, number) + rest_on_wire(*given, reference);
    if (beside.tag != 0) {
        fields += field(beside.tag, beside.text);
    }
    const std::string body = field(tag::MsgType, given->header[0].value) + fields;
    return body.size() > MOST_KEPT ? std::nullopt : std::optional(framed(body));
}

std::optional<std::string> to_venue(Text bytes, std::uint32_t number) {
    const std::optional<Text> taken = taken_body(bytes);
    if (!taken) {
        return std::nullopt;
    }
    std::string body;
    Pieces pieces(*taken);
    while (const std::optional<Piece> piece = pieces.next()) {
        if (piece->tag == tag::MsgSeqNum) {
            body += field(tag::MsgSeqNum, number);
        } else if (piece->tag == tag::SendingTime) {
            body += field(tag::SendingTime, piece->value.substr(0, MILLISECONDS));
        } else if (!is_left_out(piece->tag)) {
            add(body, piece->text);
        }
    }
    const std::string frame = framed(body);
    return frame.size() > MOST_FRAME ? std::nullopt : std::optional(frame);
}

} // namespace session_model
