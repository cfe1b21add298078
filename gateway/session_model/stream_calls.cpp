// Implements the calls of fix_sessions.h that take no session.
#include "arguments.h"
#include "cutter.h"
#include "ticking.h"

using namespace session_model;

namespace {

constexpr std::size_t MOST_ASKED = 1'024; // of each text that a Logon is asked for

// A text of a Logon, where it is there and may be asked for.
std::optional<Text> text_of(const Incoming &logon, std::uint32_t tag) {
    const std::optional<Text> text = logon.fields.value(tag);
    return text && text->size() <= MOST_ASKED ? text : std::nullopt;
}

Text asked(const Incoming &logon, std::uint32_t tag) {
    return text_of(logon, tag).value_or(Text());
}

// Whether a message is a Logon that names a session.
bool is_question(const Incoming &message) {
    return is_logon(message) && text_of(message, tag::SenderCompID) &&
           text_of(message, tag::TargetCompID);
}

bool is_clock(Bytes date, std::size_t date_len, std::uint32_t moment) {
    return is_date(text_at(date, date_len)) && moment < session_model::DAY;
}

} // namespace

void fix_sessions_next(Bytes bytes, std::size_t length, FoundNext *found) {
    const Found next = next_message(text_at(bytes, length));
    found->skip = next.skip;
    found->kind = static_cast<std::uint32_t>(next.kind);
    found->len = next.length;
}

bool fix_sessions_question(Bytes bytes, std::size_t length, std::uint8_t *out, std::size_t out_len,
                           Asked *lengths) {
    return answered([&] {
        const Incoming logon = read_incoming(text_at(bytes, length));
        if (!is_question(logon)) {
            return false;
        }
        const Text texts[] = {asked(logon, tag::SenderCompID), asked(logon, tag::TargetCompID),
                              asked(logon, tag::TargetSubID), asked(logon, tag::Username),
                              asked(logon, tag::Password)};
        std::string all;
        for (const Text text : texts) {
            all += text;
        }
        if (!copy_to(out, out_len, all)) {
            return false;
        }
        *lengths = {texts[0].size(), texts[1].size(), texts[2].size(), texts[3].size(),
                    texts[4].size()};
        return true;
    });
}

bool fix_sessions_is_logout(Bytes bytes, std::size_t length) {
    const Incoming message = read_incoming(text_at(bytes, length));
    return message.kind == Incoming::Kind::message && message.type() == "5";
}

bool fix_sessions_is_first_late(std::uint64_t since, Bytes date, std::size_t date_len,
                                std::uint32_t moment) {
    return is_clock(date, date_len, moment) && is_first_late(since, moment);
}

bool fix_sessions_is_parting_over(std::uint64_t since, Bytes date, std::size_t date_len,
                                  std::uint32_t moment) {
    return is_clock(date, date_len, moment) && is_parting_over(since, moment);
}
