// Turns the arguments of the C calls into this model's types, and its answers into theirs.
#ifndef SESSION_MODEL_ARGUMENTS_H
#define SESSION_MODEL_ARGUMENTS_H

#include "bodies.h"
#include "turn.h"

#include <new>

namespace session_model {

inline Text text_at(Bytes bytes, std::size_t length) {
    return length == 0 ? Text() : Text(reinterpret_cast<const char *>(bytes), length);
}

// Whose session it is and when, as C says it.
struct SettingArguments {
    Bytes firm;
    std::size_t firm_len;
    Bytes venue;
    std::size_t venue_len;
    Bytes desk;
    std::size_t desk_len;
    Bytes date;
    std::size_t date_len;
    std::uint32_t moment;
};

struct Setting {
    Names names;
    Clock clock;
};

// None where an argument is none.
std::optional<Setting> setting_of(const SettingArguments &arguments);

// Whether a text may be said to a firm: 1 to 200 bytes, without SOH.
bool is_told_text(Text text);
bool is_denial(const Denial &denial);

// Where a turn goes.
struct Place {
    SessionState *session;
    std::uint8_t *out;
    std::size_t out_len;
    Told *told;
};

// Tells a turn, and the session goes on. False, and nothing has changed, where there is no room.
bool tell(const Setting &setting, const Turn &turn, const Place &place);

// What a call answers; false, where memory is refused.
template <typename Call> bool answered(Call call) {
    try {
        return call();
    } catch (const std::bad_alloc &) {
        return false;
    }
}

// Copies bytes to the front of a place. False where there is no room.
bool copy_to(std::uint8_t *out, std::size_t out_len, Text bytes);

} // namespace session_model

#endif
