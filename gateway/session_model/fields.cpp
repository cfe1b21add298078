#include "fields.h"

#include <algorithm>

namespace session_model {

namespace {

constexpr std::array<std::uint32_t, 22> TAGS = {
    tag::MsgType,          tag::SenderCompID,    tag::TargetCompID,
    tag::SendingTime,      tag::PossDupFlag,     tag::PossResend,
    tag::OrigSendingTime,  tag::SenderSubID,     tag::TargetSubID,
    tag::Username,         tag::Password,        tag::EncryptMethod,
    tag::HeartBtInt,       tag::ResetSeqNumFlag, tag::NextExpectedMsgSeqNum,
    tag::DefaultApplVerID, tag::BeginSeqNo,      tag::EndSeqNo,
    tag::NewSeqNo,         tag::TestReqID,       tag::GapFillFlag,
    tag::MsgSeqNum};

// A tag: 1 to 9 digits that do not begin with 0. 0 where it is none.
std::uint32_t tag_in(Text text) {
    return text.empty() || text.front() == '0' ? 0 : number_in(text).value_or(0);
}

bool is_of_frame(std::uint32_t number) {
    return number == tag::BeginString || number == tag::BodyLength || number == tag::CheckSum;
}

bool is_of_resend(std::uint32_t number) {
    return number == tag::PossDupFlag || number == tag::PossResend ||
           number == tag::OrigSendingTime;
}

// Which tags stood there before.
class Seen {
  public:
    // Whether a field that the session reads stands there for the second time. A second MsgSeqNum
    // (34) is no fault of the form: it ends the session.
    bool is_again(std::uint32_t number) {
        const auto at = std::find(TAGS.begin(), TAGS.end(), number);
        if (at == TAGS.end() || number == tag::MsgSeqNum) {
            return false;
        }
        bool &was = were_[static_cast<std::size_t>(at - TAGS.begin())];
        const bool is_second = was;
        was = true;
        return is_second;
    }

  private:
    std::array<bool, TAGS.size()> were_{};
};

// The fault of one piece.
std::optional<Fault> piece_fault(const Piece &piece, bool is_first, std::uint32_t before,
                                 Seen &seen) {
    const bool is_again = seen.is_again(piece.tag);
    if (!piece.has_equals) {
        return Fault{before, reason::HoldsSoh};
    }
    if (piece.tag == 0) {
        return Fault{0, reason::InvalidTag};
    }
    if (is_first && piece.tag != tag::MsgType) {
        return Fault{piece.tag, reason::OutOfOrder};
    }
    if (piece.tag == tag::MsgType && !is_again && !is_message_type(piece.value)) {
        return Fault{tag::MsgType, reason::InvalidMsgType};
    }
    if (is_again || is_of_frame(piece.tag)) {
        return Fault{piece.tag, reason::Twice};
    }
    if (piece.tag == tag::TestReqID && piece.value.size() > MOST_TEST_ID) {
        return Fault{tag::TestReqID, reason::WrongValue};
    }
    if (!piece.has_end) {
        return Fault{piece.tag, reason::WrongFormat};
    }
    return std::nullopt;
}

bool has_message_type(Text body) {
    Pieces pieces(body);
    while (const std::optional<Piece> piece = pieces.next()) {
        if (piece->tag == tag::MsgType) {
            return true;
        }
    }
    return false;
}

} // namespace

std::optional<Piece> Pieces::next() {
    if (rest_.empty()) {
        return std::nullopt;
    }
    Piece piece;
    const std::size_t end = rest_.find(SOH);
    piece.has_end = end != Text::npos;
    piece.text = rest_.substr(0, end);
    rest_.remove_prefix(piece.has_end ? end + 1 : rest_.size());
    const std::size_t equals = piece.text.find('=');
    piece.has_equals = equals != Text::npos;
    if (piece.has_equals) {
        piece.tag = tag_in(piece.text.substr(0, equals));
        piece.value = piece.text.substr(equals + 1);
    }
    return piece;
}

std::optional<std::size_t> Fields::place_of(std::uint32_t tag) {
    const auto at = std::find(TAGS.begin(), TAGS.end(), tag);
    if (at == TAGS.end()) {
        return std::nullopt;
    }
    return static_cast<std::size_t>(at - TAGS.begin());
}

void Fields::take(const Piece &piece) {
    const std::optional<std::size_t> place = place_of(piece.tag);
    if (!place) {
        return;
    }
    std::optional<Text> &value = values_[*place];
    if (value) {
        is_any_twice_ = true;
        is_number_twice_ = is_number_twice_ || piece.tag == tag::MsgSeqNum;
    } else {
        value = piece.value;
    }
}

Fields Fields::of_body(Text body) {
    Fields fields;
    Pieces pieces(body);
    while (const std::optional<Piece> piece = pieces.next()) {
        fields.take(*piece);
    }
    return fields;
}

Fields Fields::of_beginning(Text bytes) {
    const std::size_t last = bytes.rfind(SOH);
    return last == Text::npos ? Fields() : of_body(bytes.substr(0, last + 1));
}

std::optional<Text> Fields::value(std::uint32_t tag) const {
    const std::optional<std::size_t> place = place_of(tag);
    return place ? values_[*place] : std::nullopt;
}

std::optional<std::uint32_t> Fields::number(std::uint32_t tag) const {
    const std::optional<Text> text = value(tag);
    return text ? number_in(*text) : std::nullopt;
}

std::optional<std::uint32_t> Fields::sequence_number() const {
    const std::optional<Text> text = value(tag::MsgSeqNum);
    return text && !is_number_twice_ ? sequence_number_in(*text) : std::nullopt;
}

std::optional<Fault> form_fault(Text body, std::size_t length) {
    if (!has_message_type(body)) {
        return Fault{tag::MsgType, reason::Missing};
    }
    Pieces pieces(body);
    Seen seen;
    std::uint32_t before = 0;
    bool is_first = true;
    while (const std::optional<Piece> piece = pieces.next()) {
        if (const std::optional<Fault> fault = piece_fault(*piece, is_first, before, seen)) {
            return fault;
        }
        if (is_of_resend(piece->tag)) {
            length -= piece->text.size() + 1;
        }
        before = piece->tag;
        is_first = false;
    }
    if (length > MOST_FRAME) {
        return Fault{tag::BodyLength, reason::WrongValue};
    }
    return std::nullopt;
}

bool is_message_type(Text text) {
    return !text.empty() && text.size() <= 4 &&
           std::all_of(text.begin(), text.end(),
                       [](char byte) { return is_digit(byte) || is_letter(byte); });
}

} // namespace session_model
