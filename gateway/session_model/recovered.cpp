#include "recovered.h"

#include <algorithm>
#include <string_view>
#include <utility>

namespace session_model {

namespace {

constexpr Number LAST = 999'999'990;
constexpr Number FIRST_COPY = 2;

// Of a message of the session's own.
constexpr std::string_view said_kinds = "A01253j";

// The numbers of what does not fit.
enum Fault : std::uint32_t {
    other_epoch = 1,
    other_given = 2,
    other_hash = 3,
    other_number = 4,
    had_falls = 5,
    expected_falls = 6,
    act_again = 7,
    not_behind = 8,
    no_kind = 10,
};

void expect(bool holds, Fault fault, const char *what) {
    if (!holds) {
        throw NotRecovered(what, fault);
    }
}

bool is_used_up(const RecoveredNumbers &session) {
    return session.next > LAST || session.expected > LAST;
}

void check_numbers(const RecoveredNumbers &session, const RecoveredNote &note) {
    expect(note.given == session.given, other_given,
           "it speaks of messages that the venue does not give");
    expect(note.hash == session.hash, other_hash,
           "the venue gives other messages than the session was given");
    expect(note.epoch == session.epoch, other_epoch, "it is of another epoch");
    expect(note.had >= session.had, had_falls, "it had more before");
    const bool begins_anew = note.kind == 'A' && note.resets;
    expect(begins_anew ? note.expected == 2 : note.expected >= session.expected, expected_falls,
           "another number was expected before");
}

void name_act(RecoveredNumbers &session, const RecoveredNote &note) {
    expect(note.act > session.act, act_again, "what it carries out was carried out before");
    session.act = note.act;
}

void log_on(RecoveredNumbers &session, const RecoveredNote &note) {
    session.is_reset = false;
    session.last_logon = note.last_logon;
    if (note.resets) {
        session.last_kept = session.last_given;
    }
}

// A message of the session's own.
void say(RecoveredNumbers &session, const RecoveredNote &note) {
    const bool may_be_first = note.kind == 'A' || note.kind == '5';
    const bool begins_anew = note.kind == 'A' && note.resets;
    const bool is_first = begins_anew || (may_be_first && session.is_one_free);
    expect(note.number == (is_first ? 1 : session.next), other_number,
           "its number is not the next one");
    session.next += is_first ? 0 : 1;
    if (may_be_first) {
        session.is_one_free = false;
    }
    if (note.kind == 'A') {
        log_on(session, note);
    } else if (note.kind == '3' || note.kind == 'j') {
        session.last_kept = note.number;
    }
}

void lock(RecoveredNumbers &session, const RecoveredNote &note) {
    expect(note.number == 0, other_number, "a lock uses no number");
    if (!note.is_locked) {
        name_act(session, note);
    }
    session.is_locked = note.is_locked;
}

void reset(RecoveredNumbers &session, const RecoveredNote &note, Number copies) {
    expect(note.number == 0, other_number, "a reset uses no number");
    name_act(session, note);
    expect(note.last >= note.act && note.last >= session.since, act_again,
           "it counts entries that came before");
    RecoveredNumbers next;
    next.epoch = session.epoch + 1;
    next.since = note.last;
    next.act = session.act;
    next.given = session.given;
    next.hash = session.hash;
    next.is_reset = true;
    next.reset_at = note.moment;
    next.next = FIRST_COPY + copies;
    if (copies > 0) {
        next.first_given = FIRST_COPY;
        next.last_given = next.last_kept = next.next - 1;
    }
    session = next;
}

// The fold over the notes of one firm, with what it keeps.
class Recovering {
  public:
    Recovering(const std::vector<RecoveredAct> &acts, const std::vector<RecoveredMessage> &messages)
        : acts_(acts), messages_(messages) {}

    void take(const RecoveredNote &note) {
        expect(note.given <= messages_.size(), other_given,
               "it speaks of messages that the venue does not give");
        while (session_.given < note.given) {
            give();
        }
        if (note.kind == 'R' || (note.kind == 'L' && !note.is_locked)) {
            check_act(note);
        }
        std::map<Number, RecoveredKept> copies = note.kind == 'R' ? copies_above(note.had) : Kept();
        after_note(session_, note, copies.size());
        if (note.kind == 'R') {
            session_.kept = std::move(copies);
        } else if (note.kind == 'A' && note.resets) {
            std::erase_if(session_.kept, [](const auto &kept) { return kept.second.given == 0; });
        } else if (note.kind == '3' || note.kind == 'j') {
            session_.kept[note.number] = {0, note.kind, note.fields, note.moment, false};
        }
    }

    RecoveredSession finished(const std::vector<RecoveredEntry> &entries) {
        while (session_.given < messages_.size()) {
            give();
        }
        for (const RecoveredEntry &entry : entries) {
            after_entry(session_, entry);
        }
        for (const RecoveredAct &act : acts_) {
            if (act.kind == ActKind::suspend || act.kind == ActKind::resume) {
                session_.is_suspended = act.kind == ActKind::suspend;
            }
        }
        return std::move(session_);
    }

  private:
    using Kept = std::map<Number, RecoveredKept>;

    // The venue's next message.
    void give() {
        const RecoveredMessage &message = messages_[session_.given];
        if (const Number number = after_message(session_, message.hash)) {
            session_.kept[number] = {session_.given, 'V', {}, message.moment, false};
        }
    }

    void check_act(const RecoveredNote &note) const {
        const ActKind kind = note.kind == 'R' ? ActKind::reset : ActKind::release;
        const bool stands = std::ranges::any_of(acts_, [&](const RecoveredAct &act) {
            return act.place == note.act && act.kind == kind;
        });
        expect(stands, act_again, "no operator has done what it carries out");
    }

    Kept copies_above(Number had) const {
        Kept copies;
        for (auto kept = session_.kept.upper_bound(had); kept != session_.kept.end(); ++kept) {
            if (kept->second.given > 0) {
                RecoveredKept &copy = copies[FIRST_COPY + copies.size()];
                copy = kept->second;
                copy.is_copy = true;
            }
        }
        return copies;
    }

    const std::vector<RecoveredAct> &acts_;
    const std::vector<RecoveredMessage> &messages_;
    RecoveredSession session_;
};

} // namespace

Number after_message(RecoveredNumbers &session, const Hash &hash) {
    ++session.given;
    session.hash = hash;
    if (is_used_up(session)) {
        return 0;
    }
    const Number number = session.next++;
    session.last_given = session.last_kept = number;
    if (session.first_given == 0) {
        session.first_given = number;
    }
    return number;
}

void after_note(RecoveredNumbers &session, const RecoveredNote &note, Number copies) {
    check_numbers(session, note);
    switch (note.kind) {
    case 'R':
        reset(session, note, copies);
        return;
    case 'L':
        lock(session, note);
        break;
    case 'M':
        expect(note.number == 0, other_number, "a mark uses no number");
        break;
    default:
        expect(said_kinds.find(note.kind) != std::string_view::npos, no_kind, "it is no note");
        say(session, note);
    }
    session.expected = note.expected;
    session.had = note.had;
}

void after_entry(RecoveredNumbers &session, const RecoveredEntry &entry) {
    if (entry.place <= session.since) {
        return;
    }
    if (entry.number <= session.taken) {
        throw NotRecovered("entry " + std::to_string(entry.place) +
                               ": its number is not behind that of the entry before",
                           not_behind);
    }
    session.taken = entry.number;
    session.was_taken = true;
    session.expected = std::max(session.expected, entry.number + 1);
}

RecoveredSession recovered(const std::vector<RecoveredEntry> &entries,
                           const std::vector<RecoveredAct> &acts,
                           const std::vector<RecoveredMessage> &messages,
                           const std::vector<RecoveredNote> &notes) {
    Recovering recovering(acts, messages);
    for (std::size_t at = 0; at < notes.size(); ++at) {
        try {
            recovering.take(notes[at]);
        } catch (const NotRecovered &fault) {
            throw NotRecovered("note " + std::to_string(at + 1) + ": " + fault.what(), fault.code);
        }
    }
    return recovering.finished(entries);
}

} // namespace session_model
