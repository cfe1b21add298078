// Reads the fields of a body, and finds its faults: docs/FORMATS.md, "What comes over the network".
#ifndef SESSION_MODEL_FIELDS_H
#define SESSION_MODEL_FIELDS_H

#include "bytes.h"

#include <array>

namespace session_model {

// The tags that the session reads, by their names in FIX.
namespace tag {
constexpr std::uint32_t BeginSeqNo = 7, BeginString = 8, BodyLength = 9, CheckSum = 10,
                        EndSeqNo = 16, MsgSeqNum = 34, MsgType = 35, NewSeqNo = 36,
                        PossDupFlag = 43, RefSeqNum = 45, SenderCompID = 49, SenderSubID = 50,
                        SendingTime = 52, TargetCompID = 56, TargetSubID = 57, Text = 58,
                        PossResend = 97, EncryptMethod = 98, HeartBtInt = 108, TestReqID = 112,
                        OrigSendingTime = 122, GapFillFlag = 123, ResetSeqNumFlag = 141,
                        RefTagID = 371, RefMsgType = 372, SessionRejectReason = 373,
                        BusinessRejectRefID = 379, BusinessRejectReason = 380, Username = 553,
                        Password = 554, NextExpectedMsgSeqNum = 789, DefaultApplVerID = 1137;
} // namespace tag

// SessionRejectReason (373).
namespace reason {
constexpr std::uint32_t InvalidTag = 0, Missing = 1, NoValue = 4, WrongValue = 5, WrongFormat = 6,
                        CompID = 9, SendingTime = 10, InvalidMsgType = 11, Twice = 13,
                        OutOfOrder = 14, HoldsSoh = 17;
} // namespace reason

// What is wrong with a message: RefTagID (371), or 0 without one, and SessionRejectReason (373).
struct Fault {
    std::uint32_t tag = 0;
    std::uint32_t reason = 0;
};

// The most bytes of a message without what a resend adds.
constexpr std::size_t MOST_FRAME = 4'096;

// The most bytes of a TestReqID (112).
constexpr std::size_t MOST_TEST_ID = 1'024;

// A piece of a body, up to SOH.
struct Piece {
    Text text;             // without SOH
    Text value;            // behind the equals sign
    std::uint32_t tag = 0; // 0 where it has no lawful one
    bool has_equals = false;
    bool has_end = false; // SOH stands behind it
};

// Goes through the pieces of a body.
class Pieces {
  public:
    explicit Pieces(Text body) : rest_(body) {}

    // The next one, or none.
    std::optional<Piece> next();

  private:
    Text rest_;
};

// The fields of a message that the session reads.
class Fields {
  public:
    // Of a body; or of the beginning of one, whose last piece is no field without its SOH.
    static Fields of_body(Text body);
    static Fields of_beginning(Text bytes);

    // The value of the first field with one of those tags.
    std::optional<Text> value(std::uint32_t tag) const;
    bool has(std::uint32_t tag) const { return value(tag).has_value(); }
    bool is(std::uint32_t tag, Text text) const { return value(tag) == text; }
    std::optional<std::uint32_t> number(std::uint32_t tag) const;

    // MsgSeqNum (34): none where it is missing, stands there twice, or is no number from 1.
    std::optional<std::uint32_t> sequence_number() const;

    // Whether a field that the session reads stands there twice.
    bool is_any_twice() const { return is_any_twice_; }

  private:
    static constexpr std::size_t COUNT = 22;
    static std::optional<std::size_t> place_of(std::uint32_t tag);
    void take(const Piece &piece);

    std::array<std::optional<Text>, COUNT> values_;
    bool is_any_twice_ = false;
    bool is_number_twice_ = false;
};

// The first fault of a message's form; `length` is that of the whole message.
std::optional<Fault> form_fault(Text body, std::size_t length);

// Whether a text is 1 to 4 letters or digits, as a MsgType (35) is.
bool is_message_type(Text text);

} // namespace session_model

#endif
