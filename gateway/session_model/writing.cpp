#include "writing.h"

#include "cutter.h"
#include "fields.h"

namespace session_model {

namespace {

bool is_piece_lawful(const Piece &piece) {
    return piece.has_equals && piece.has_end && piece.tag != 0 && piece.tag != tag::BeginString &&
           piece.tag != tag::BodyLength && piece.tag != tag::CheckSum;
}

} // namespace

bool has_lawful_fields(Text body) {
    Pieces pieces(body);
    bool is_first = true;
    while (const std::optional<Piece> piece = pieces.next()) {
        if (!is_piece_lawful(*piece) || (is_first && piece->tag != tag::MsgType)) {
            return false;
        }
        is_first = false;
    }
    return !is_first;
}

std::optional<Text> frame_body(Text frame) {
    const Front front = front_of(frame);
    const bool is_frame = front.kind == Front::Kind::whole && front.length == frame.size() &&
                          front.is_sum_right && front.version == "FIXT.1.1" &&
                          frame.size() <= MOST_FRAME && has_lawful_fields(front.body);
    return is_frame ? std::optional(front.body) : std::nullopt;
}

std::string written(const Names &names, const Clock &clock, const Said &said) {
    std::string body = field(tag::MsgType, Text(said.body.type)) +
                       field(tag::SenderCompID, names.venue) +
                       field(tag::TargetCompID, names.firm) + field(tag::MsgSeqNum, said.number);
    if (said.first) {
        body += field(tag::PossDupFlag, Text("Y"));
    }
    body += field(tag::SendingTime, Text(written_time(clock.date, clock.moment)));
    if (said.first) {
        body += field(tag::OrigSendingTime, Text(written_time(clock.date, *said.first)));
    }
    if (said.is_copy) {
        body += field(tag::PossResend, Text("Y"));
    }
    return framed(body + said.body.fields);
}

std::string kept_frame(const Body &body) {
    return framed(field(tag::MsgType, Text(body.type)) + body.fields);
}

std::optional<Body> body_of_frame(Text frame) {
    const std::optional<Text> text = frame_body(frame);
    if (!text || text->size() > MOST_KEPT) {
        return std::nullopt;
    }
    const Piece type = *Pieces(*text).next();
    return Body{std::string(type.value), std::string(text->substr(type.text.size() + 1))};
}

} // namespace session_model
