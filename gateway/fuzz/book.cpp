#include "book.h"

#include "strict.h"

#include <algorithm>
#include <cstdio>
#include <cstdlib>

namespace gateway::fuzz {

namespace {

// The seeds have these.
const std::map<std::string, std::string> &passwords() {
    static const std::map<std::string, std::string> all = {{"F", "secret"}, {"G", "secret-of-g"}};
    return all;
}

} // namespace

void violated(const std::string &what) {
    std::string text = what;
    std::replace(text.begin(), text.end(), '\x01', '|');
    std::fprintf(stderr, "\nVIOLATED: %s\n", text.c_str());
    std::abort();
}

void Book::note(const std::string &text) {
    trace_ += text + "\n";
}

// The right password alone is enough for a Logout that says why a Logon is refused.
void Book::need_password(const char *what, const std::string &firm) const {
    const auto found = shown_.find(speaker_);
    if (password_ == Password::withheld || found == shown_.end() || found->second != firm) {
        violated(std::string(what) + " for " + firm + " without its password on the connection");
    }
}

void Book::need_holder(const char *what, const std::string &firm) {
    need_password(what, firm);
    if (firms_[firm].holder != speaker_) {
        violated(std::string(what) + " for " + firm + ", whose Logon was not accepted there");
    }
}

// By a second reading of the connection's first message.
void Book::need_logon(const std::string &firm) const {
    const Script script = script_of(brought_.at(speaker_));
    const std::string first = script.messages.empty() ? "" : written({{script.messages[0]}, false});
    if (!is_logon_of(first, firm, passwords().at(firm))) {
        violated("accepted as a Logon of " + firm + ": " + first);
    }
}

void Book::ended(unsigned connection) {
    for (const auto &firm : firms_) {
        if (firm.second.holder == connection) {
            violated("a connection that has ended still has the session of " + firm.first);
        }
    }
    shown_.erase(connection);
}

// What leaves on a connection: of its firm alone, and only where the firm has shown its password
// there. Where its Logon was not accepted, a Logout that refuses it, and nothing else.
void Book::sent(unsigned connection, const std::string &bytes) {
    const auto found = shown_.find(connection);
    if (found == shown_.end()) {
        violated("a stranger is told " + bytes);
    }
    const std::string &firm = found->second;
    Firm &its = firms_[firm];
    for (const std::string &message : messages_in(bytes)) {
        if (value_in(message, 56) != firm) {
            violated(firm + " is told what is another's: " + message);
        }
        const bool leaves = value_in(message, 35) == "5";
        if (its.holder != connection && !leaves) {
            violated("something leaves on a connection without an accepted Logon: " + message);
        }
        its.is_told = its.is_told || (its.holder == connection && leaves);
        look_at_sent(firm, message);
        note("sent " + message);
    }
}

// With 43 what is kept under the number, and a gap fill over nothing that is kept; without it the
// venue's in their order, each once.
void Book::look_at_sent(const std::string &firm, const std::string &message) {
    Firm &its = firms_[firm];
    const auto number = static_cast<std::uint32_t>(std::stoul(value_in(message, 34)));
    const auto kept = its.kept.find(number);
    const bool is_same = kept != its.kept.end() && kept->second.type == value_in(message, 35) &&
                         behind_header(kept->second.frame) == behind_header(message);
    if (value_in(message, 35) == "4") {
        const auto next = static_cast<std::uint32_t>(std::stoul(value_in(message, 36)));
        const auto covered = its.kept.lower_bound(number);
        const bool covers = covered != its.kept.end() && covered->first < next;
        if (next <= number || (covers && covered->second.type != "0")) {
            violated("a gap fill covers what is kept: " + message);
        }
    } else if (value_in(message, 43) == "Y") {
        if (!is_same) {
            violated("sent again, and not kept so: " + message);
        }
    } else if (!value_in(message, 1181).empty()) {
        if (!is_same || number <= its.left) {
            violated("of the venue, and not kept so, or not in its order: " + message);
        }
        its.left = number;
    }
}

Refusal Book::judge(const LogonFacts &facts) {
    const auto found = passwords().find(facts.firm);
    if (found == passwords().end()) {
        return Refusal::unknown_name;
    }
    if (facts.username != facts.firm) {
        return Refusal::wrong_name;
    }
    if (password_ == Password::withheld || facts.password != found->second) {
        return Refusal::wrong_password;
    }
    shown_[speaker_] = facts.firm;
    return Refusal::none;
}

std::uint32_t Book::logon_accepted(const std::string &firm, const ConnectionFacts &) {
    need_password("a Logon is accepted", firm);
    Firm &its = firms_[firm];
    if (its.holder != 0) {
        violated("two connections have the session of " + firm);
    }
    need_logon(firm);
    if (refused_.count(speaker_) != 0) {
        violated("a Logon of " + firm + " is accepted that was refused");
    }
    its.holder = speaker_;
    its.is_told = false;
    its.number = ++numbers_;
    note("logon of " + firm);
    return its.number;
}

void Book::logon_refused(const std::string &firm, const ConnectionFacts &, const std::string &why) {
    if (passwords().count(firm) == 0) {
        violated("a Logon of nobody is told as one of " + firm);
    }
    refused_.insert(speaker_);
    note("refused " + firm + ": " + why);
}

// The one that a newer one found dead ends while that speaks.
void Book::connection_ended(const std::string &firm, std::uint32_t connection,
                            const std::string &) {
    if (speaker_ != 0) {
        need_password("a connection ends", firm);
    }
    if (firms_[firm].number != connection || firms_[firm].holder == 0) {
        violated("the end of another connection of " + firm);
    }
    firms_[firm].holder = 0;
    note("end of " + firm);
}

void Book::logged_on(const std::string &firm) {
    need_holder("a session begins", firm);
}

void Book::logged_off(const std::string &firm) {
    need_password("a session ends", firm);
}

bool Book::brings_any(const std::string &field) const {
    const auto found = brought_.find(speaker_);
    return found != brought_.end() && found->second.find("\x01" + field) != std::string::npos;
}

// The expected number moves by one; by the firm's own SequenceReset; or, where the firm says 141=Y
// and the venue was given nothing of it, back to that behind 1.
void Book::look_at_numbers(const std::string &firm, const SessionNumbers &now) {
    Firm &its = firms_[firm];
    const SessionNumbers &before = its.numbers;
    const bool begins = now.expected == 2 && brings_any("141=Y\x01") && its.received == 0;
    const bool moves = now.expected > before.expected &&
                       (now.expected == before.expected + 1 || brings_any("35=4\x01"));
    if (now.expected != before.expected) {
        need_holder("a number is counted", firm);
        if (!moves && !begins) {
            violated("the number of " + firm + " goes from " + std::to_string(before.expected) +
                     " to " + std::to_string(now.expected));
        }
    }
    if (now.next < before.next || now.next > before.next + 2 || now.expected > 1000000000) {
        violated("the numbers to " + firm + " go from " + std::to_string(before.next) + " to " +
                 std::to_string(now.next));
    }
    its.numbers = now;
}

std::uint64_t Book::put(const std::string &firm, const SessionEvent &event) {
    if (event.given == nullptr) {
        need_password("an event is put into the log", firm);
    }
    Firm &its = firms_[firm];
    if (event.drops_rejects) {
        std::erase_if(its.kept, [](const auto &row) {
            return row.second.type == "j" ||
                   (row.second.type == "3" && value_in(row.second.frame, 1181).empty());
        });
    }
    if (event.kept) {
        const KeptMessage &kept = *event.kept;
        if (kept.number < its.numbers.next || !its.kept.emplace(kept.number, kept).second) {
            violated("kept under a number that was used: " + kept.frame);
        }
        if (event.given == nullptr && kept.type != "3" && kept.type != "j" && kept.type != "0") {
            violated("kept of the session's own: " + kept.frame);
        }
        note("kept " + kept.frame);
    }
    look_at_numbers(firm, event.numbers);
    note("put for " + firm + ": " + std::to_string(event.numbers.expected) + " " +
         std::to_string(event.numbers.next));
    return 1;
}

Taken Book::take(const std::string &firm, const SessionInput &input, const SessionEvent &event) {
    need_holder("a message is accepted", firm);
    Firm &its = firms_[firm];
    const std::string bytes(input.bytes);
    if (its.is_told) {
        violated("accepted of " + firm + " behind a Logout: " + bytes);
    }
    if (input.receipt.connection != its.number) {
        violated("a message of " + firm + " is put to another connection");
    }
    const std::string fault = fault_of_accepted(bytes, firm, its.numbers.expected);
    if (!fault.empty()) {
        violated("accepted of " + firm + ": " + fault + ": " + bytes);
    }
    if (input.number != its.numbers.expected || input.number <= its.received ||
        event.numbers.expected != input.number + 1 || event.kept) {
        violated("a message of " + firm + " is accepted otherwise than once: " + bytes);
    }
    its.received = input.number;
    look_at_numbers(firm, event.numbers);
    note("received " + bytes);
    return {};
}

std::vector<KeptMessage> Book::kept_messages(const std::string &firm, std::uint32_t from,
                                             std::size_t limit) {
    need_holder("what is kept is read", firm);
    std::vector<KeptMessage> found;
    const auto &kept = firms_[firm].kept;
    for (auto at = kept.lower_bound(from); at != kept.end() && found.size() < limit; ++at) {
        found.push_back(at->second);
    }
    return found;
}

} // namespace gateway::fuzz
