#include "session/door.h"

#include "session/refusal_words.h"
#include "session/session_names.h"
#include "session/sessions.h"
#include "session/transport.h"
#include "session/turns.h"

namespace gateway {

namespace {

const char *word_of(Refusal refusal) {
    switch (refusal) {
    case Refusal::none:
        return nullptr;
    case Refusal::unknown_name:
        return stranger_words::unknown_name;
    case Refusal::no_access:
        return refusal_words::no_access;
    case Refusal::wrong_name:
        return refusal_words::wrong_name;
    case Refusal::wrong_password:
        return refusal_words::wrong_password;
    case Refusal::wrong_certificate:
        return refusal_words::wrong_certificate;
    case Refusal::wrong_address:
        return refusal_words::wrong_address;
    case Refusal::no_longer:
        return refusal_words::no_longer;
    case Refusal::not_certified:
        return refusal_words::not_certified;
    }
    return stranger_words::unknown_name;
}

// From when on another Logon of the address is judged. One that is no firm's any more is not looked
// at again.
Turns::Time next_turn_of(const FirmSession &asked, const std::string &address) {
    const auto from = asked.host().judges_from(address);
    return from == SessionHost::Time::max() ? Turns::Time() : from;
}

} // namespace

Door::Door(const Sessions &sessions, EngineEvents &events, Transport &transport)
    : sessions_(sessions), events_(events), transport_(transport),
      connection_(sessions.next_connection()) {}

Door::Standing Door::judge(std::string_view first) {
    const std::optional<LogonQuestion> logon = question_of(first);
    if (!logon) {
        turn_away(stranger_words::no_logon, "a first message that is no Logon");
        return Standing::over;
    }
    transport_.is_judged();
    session_ = named_in(*logon);
    Judged judged;
    if (!judge_sender(*logon, judged)) {
        return Standing::over;
    }
    if (session_ == nullptr) {
        turn_away(stranger_words::unknown_name, logon->firm);
        return Standing::over;
    }
    if (judged.refusal != Refusal::none) {
        return refuse(word_of(judged.refusal), first);
    }
    if (transport_.is_ending()) {
        // Meanwhile.
        return Standing::over;
    }
    // From here on the session tells how it ends.
    is_known_ = is_told_ = true;
    const Standing standing = session_->enter(connection_, transport_, first, judged.reading);
    if (standing == Standing::waits) {
        logon_ = first;
    }
    return standing;
}

Door::Standing Door::look_again() {
    return session_->look_again(connection_, logon_);
}

FirmSession *Door::named_in(const LogonQuestion &logon) const {
    return logon.venue == venue_name ? sessions_.named_by(logon.firm, logon.desk) : nullptr;
}

// Of a name that nobody has too, by what the venue asks of the names that it has: so that it takes
// as long. False where the connection has ended before its turn came.
bool Door::judge_sender(const LogonQuestion &logon, Judged &judged) const {
    const ConnectionFacts connection = transport_.facts();
    LogonFacts facts;
    facts.firm = logon.firm;
    facts.username = logon.username;
    facts.password = logon.password;
    facts.over_tls = connection.over_tls;
    facts.certificate = connection.certificate;
    facts.address = connection.address.substr(0, connection.address.rfind(':'));
    const FirmSession *const asked = session_ != nullptr ? session_ : sessions_.any_of(logon.desk);
    if (asked == nullptr) {
        return false;
    }
    if (asked->host().judges_from(facts.address) == SessionHost::Time::max()) {
        judged.refusal = Refusal::wrong_address;
        return true;
    }
    return sessions_.turns().take(
        facts.address, [this] { return transport_.is_ending(); },
        [&] {
            judged.reading = asked->host().readings();
            judged.refusal = asked->host().judge(facts);
            return next_turn_of(*asked, facts.address);
        });
}

// The connection ends before anybody is told: what that takes is nothing to go by.
Door::Standing Door::refuse(const char *word, std::string_view logon) {
    is_told_ = true;
    transport_.shut(word);
    session_->host().logon_refused(session_->firm(), transport_.facts(), word);
    session_->credentials_refused(logon);
    return Standing::over;
}

void Door::turn_away(const char *word, const std::string &text) {
    transport_.shut(word);
    if (!is_told_) {
        is_told_ = true;
        events_.stranger(transport_.facts(), word, text);
    }
}

void Door::end(const std::string &why) {
    if (is_known_) {
        is_known_ = false;
        session_->release(connection_, why);
    } else if (!is_told_) {
        const bool made_room = why == stranger_words::made_room;
        turn_away(made_room ? stranger_words::made_room : stranger_words::closed, why);
    }
}

} // namespace gateway
