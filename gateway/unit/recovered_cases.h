// Days that a model of the rules drew, and what each has to give: the lines of recovered.cases.
#ifndef GATEWAY_TESTS_RECOVERED_CASES_H
#define GATEWAY_TESTS_RECOVERED_CASES_H

#include "session_model/recovered.h"

#include <fstream>
#include <optional>
#include <sstream>
#include <string>
#include <vector>

namespace session_model::tests {

inline Hash hash_of(const std::string &digits) {
    Hash hash{};
    for (std::size_t at = 0; at + 1 < digits.size(); at += 2) {
        hash[at / 2] = static_cast<unsigned char>(std::stoi(digits.substr(at, 2), nullptr, 16));
    }
    return hash;
}

// A day, and what it has to give, as lines of the file have it.
struct Case {
    std::string name;
    std::vector<RecoveredEntry> entries;
    std::vector<RecoveredAct> acts;
    std::vector<RecoveredMessage> messages;
    std::vector<RecoveredNote> notes;
    std::string expected; // a line each

    std::string given() const {
        try {
            return shown(recovered(entries, acts, messages, notes));
        } catch (const NotRecovered &) {
            return "refused\n";
        }
    }

  private:
    static std::string shown(const RecoveredSession &session) {
        std::ostringstream text;
        text << "session " << session.epoch << ' ' << session.since << ' ' << session.expected
             << ' ' << session.next << ' ' << session.had << ' ' << session.first_given << ' '
             << session.last_given << ' ' << session.last_kept << ' ' << session.is_one_free << ' '
             << session.was_taken << ' ' << session.is_reset << '\n';
        for (const auto &[number, kept] : session.kept) {
            text << "kept " << number << ' ' << kept.kind << ' '
                 << (kept.given > 0 ? std::to_string(kept.given) : kept.fields) << ' ' << kept.first
                 << ' ' << kept.is_copy << '\n';
        }
        return text.str();
    }
};

inline RecoveredNote note_of(std::istream &line) {
    RecoveredNote note;
    std::string hash;
    line >> note.kind >> note.epoch >> note.number >> note.expected >> note.had >> note.given >>
        hash >> note.moment;
    note.hash = hash == "-" ? Hash{} : hash_of(hash);
    if (note.kind == 'A') {
        std::string resets;
        line >> resets;
        note.resets = resets == "Y";
    } else if (note.kind == 'R') {
        line >> note.last >> note.act;
    } else {
        line >> note.fields;
    }
    return note;
}

inline void read(const std::string &text, Case &of) {
    std::istringstream line(text);
    std::string word;
    line >> word;
    if (word == "entry") {
        line >> of.entries.emplace_back().place >> of.entries.back().number;
    } else if (word == "act") {
        line >> of.acts.emplace_back().place;
        of.acts.back().kind = ActKind::reset;
    } else if (word == "message") {
        std::string hash;
        line >> hash >> of.messages.emplace_back().moment;
        of.messages.back().hash = hash_of(hash);
    } else if (word == "note") {
        of.notes.push_back(note_of(line));
    } else {
        of.expected += text + "\n";
    }
}

inline std::vector<Case> cases() {
    std::ifstream file(RECOVERED_CASES);
    std::vector<Case> all;
    for (std::string line; std::getline(file, line);) {
        if (line.starts_with("case ")) {
            all.emplace_back().name = line;
        } else if (!line.starts_with('#')) {
            read(line, all.at(all.size() - 1));
        }
    }
    return all;
}

} // namespace session_model::tests

#endif
