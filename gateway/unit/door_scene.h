// Plays connections without a network: a test puts bytes in, and sees what is said and what the
// host is told.
#ifndef GATEWAY_TESTS_DOOR_SCENE_H
#define GATEWAY_TESTS_DOOR_SCENE_H

#include "check.h"
#include "common/frame.h"
#include "no_events.h"
#include "session/conversation.h"
#include "session/sessions.h"
#include "session/transport.h"
#include "still_clock.h"

#include <chrono>
#include <functional>
#include <map>
#include <string>
#include <string_view>
#include <utility>
#include <vector>

#include <fmt/ranges.h>

namespace gateway::tests {

// The moment at which the clock of a scene begins, and the same as a SendingTime (52).
using Received = Conversation::Received;
inline const Received at_nine =
    std::chrono::sys_days{std::chrono::year{2025} / 3 / 14} + std::chrono::hours{9};
inline const std::string today = "20250314";
inline const std::string nine = "20250314-09:00:00";

using Calls = std::vector<std::string>;

inline void check_calls(const Calls &wanted, const Calls &came, const std::string &what) {
    check(wanted == came, fmt::format("{}: wanted {}, came {}", what, wanted, came));
}

// The value of a field, in bytes with bars; empty where there is none.
inline std::string value_of(std::string_view text, int tag) {
    const std::string begin = fmt::format("|{}=", tag);
    const std::size_t at = text.find(begin);
    if (at == std::string_view::npos) {
        return {};
    }
    const std::size_t from = at + begin.size();
    return std::string(text.substr(from, text.find('|', from) - from));
}

// Whether what a session keeps is its own, and carries nothing of the venue.
inline bool is_own(const KeptMessage &kept) {
    return kept.frame.find("\x01"
                           "1181=") == std::string::npos;
}

// A host that keeps, in their order, the calls that change something for its firm; and a log that
// commits what it is asked to wait for.
class Book final : public SessionHost {
  public:
    Refusal judge(const LogonFacts &facts) override {
        judged.push_back(facts.firm);
        addresses.push_back(facts.address);
        reading += read_while_judged;
        return verdict;
    }
    std::uint64_t readings() const override { return reading; }
    std::uint32_t logon_accepted(const std::string &, const ConnectionFacts &) override {
        calls.push_back(fmt::format("accepted {}", ++connections_));
        return connections_;
    }
    void logon_refused(const std::string &, const ConnectionFacts &,
                       const std::string &why) override {
        refusals.push_back(why);
    }
    void may_have_lost_store(const std::string &firm, const NumberClimb &climb) override {
        climbs.push_back(fmt::format("{} {} {} {}", firm, climb.from, climb.to, climb.refused));
    }
    void connection_ended(const std::string &, std::uint32_t connection,
                          const std::string &why) override {
        calls.push_back(fmt::format("ended {}", connection));
        ends.push_back(why);
    }
    void logged_on(const std::string &) override { ++logons; }
    void logged_off(const std::string &) override { --logons; }

    std::uint64_t put(const std::string &, const SessionEvent &event) override {
        ++last_ticket;
        replies += event.replies;
        notes.insert(notes.end(), event.notes.begin(), event.notes.end());
        if (event.drops_rejects) {
            calls.push_back("drops");
            std::erase_if(
                kept, [](const auto &row) { return row.second.type != "0" && is_own(row.second); });
        }
        note_numbers(event.numbers);
        if (event.kept) {
            const KeptMessage &row = kept[event.kept->number] = *event.kept;
            check(is_own(row) == (event.given == nullptr), "whose it is: " + with_bars(row.frame));
            calls.push_back(fmt::format("kept {} {}", row.number, row.type));
        }
        return last_ticket;
    }
    bool replies_too_much(const std::string &) override { return replies > most_replies; }
    void wait_stored(std::uint64_t ticket) override {
        if (const auto happens = std::exchange(happens_while_it_commits, nullptr)) {
            happens();
        }
        stored = std::max(stored, ticket);
    }
    bool is_entry_stored(const std::string &, std::uint32_t place) override {
        return place <= stored_place;
    }
    void wait_entry_stored(std::uint32_t place) override {
        stored_place = std::max(stored_place, place);
    }
    Taken take(const std::string &, const SessionInput &input, const SessionEvent &event) override {
        check(input.receipt.connection == connections_, "a message of another connection");
        if (denial.verdict != Taken::Verdict::taken) {
            return denial;
        }
        calls.push_back(fmt::format("received {}", input.number));
        ++last_ticket;
        note_numbers(event.numbers);
        return {};
    }
    void all_received() override { stored = last_ticket; }
    std::vector<KeptMessage> kept_messages(const std::string &, std::uint32_t from,
                                           std::size_t limit) override {
        std::vector<KeptMessage> found;
        reads.push_back(limit);
        for (auto at = kept.lower_bound(from); at != kept.end() && found.size() < limit; ++at) {
            found.push_back(at->second);
        }
        if (const auto happens = std::exchange(happens_at_next_read, nullptr)) {
            happens();
        }
        return found;
    }
    std::uint64_t count_kept(const std::string &, std::uint32_t behind) override {
        return copies_behind(behind).size();
    }
    void put_reset(const std::string &, std::uint32_t behind, const SessionEvent &event) override {
        std::map<std::uint32_t, KeptMessage> copies;
        for (KeptMessage &copy : copies_behind(behind)) {
            copy.is_copy = true;
            copy.number = static_cast<std::uint32_t>(2 + copies.size());
            copies.emplace(copy.number, std::move(copy));
        }
        kept.swap(copies);
        tickets_.clear();
        numbers = event.numbers;
        calls.push_back("reset");
    }

    Time was_sent_again(const std::string &, std::size_t messages) override {
        sent_again += messages;
        return {};
    }

    // Whether the number of a message of the session's own is in the log, with all lower ones.
    bool is_stored(std::uint32_t number) const {
        const auto found = tickets_.find(number);
        return found != tickets_.end() && found->second <= stored;
    }

    Refusal verdict = Refusal::none;
    std::uint64_t reading = 0;           // how often the credentials were read again
    std::uint64_t read_while_judged = 0; // and how often within each judgement
    Taken denial;                        // of what the venue is to be given
    std::vector<std::string> judged;     // the names,
    std::vector<std::string> addresses;  // and from where they came
    std::vector<std::string> refusals;   // their words
    std::vector<std::string> climbs;     // FIRM FROM TO REFUSED
    std::vector<std::string> ends;       // why connections have ended
    std::vector<std::string> calls;
    std::vector<SessionNote> notes; // that are written, in their order
    std::map<std::uint32_t, KeptMessage> kept;
    std::vector<std::size_t> reads;                 // of what is kept, and how many each could have
    std::function<void()> happens_at_next_read;     // before what was read is back
    std::function<void()> happens_while_it_commits; // what a message of the session's own waits for
    std::size_t sent_again = 0;                     // by the firm's rate
    std::size_t replies = 0;                        // of the session's own, that count,
    std::size_t most_replies = SessionNumbers::last; // and how many may be
    SessionNumbers numbers;
    int logons = 0; // that have not ended
    std::uint64_t last_ticket = 0;
    std::uint64_t stored = 0;
    std::uint32_t stored_place = SessionNumbers::last; // all entries up to it are on disk

  private:
    void note_numbers(const SessionNumbers &now) {
        if (now.expected != numbers.expected) {
            calls.push_back(fmt::format("expects {}", now.expected));
        }
        for (std::uint32_t number = numbers.next; number < now.next; ++number) {
            tickets_[number] = last_ticket;
        }
        if (!now.is_one_free) {
            tickets_.emplace(1, last_ticket);
        }
        numbers = now;
    }
    std::vector<KeptMessage> copies_behind(std::uint32_t number) const {
        std::vector<KeptMessage> copies;
        for (auto at = kept.upper_bound(number); at != kept.end(); ++at) {
            if (!is_own(at->second)) {
                copies.push_back(at->second);
            }
        }
        return copies;
    }

    std::uint32_t connections_ = 0;
    std::map<std::uint32_t, std::uint64_t> tickets_; // by which each number was used up
};

// Keeps what strangers were turned away for.
class Gate final : public NoEvents {
  public:
    void stranger(const ConnectionFacts &, const std::string &why, const std::string &) override {
        strangers.push_back(why);
    }
    void dropped(const std::string &what, const std::string &) override { drops.push_back(what); }

    std::vector<std::string> strangers;
    std::vector<std::string> drops;
};

// What is said to a peer, with bars, until its connection ends. What is the session's own has to be
// in the log before, and the entry that the venue answers before its answer.
class Ear final : public Transport {
  public:
    explicit Ear(Book &book) : book_(book) {}

    bool send(std::string_view bytes) override {
        std::string rest = with_bars(std::string(bytes));
        while (!rest.empty()) {
            const std::size_t end = rest.find("|10=") + 8;
            take(rest.substr(0, end));
            rest.erase(0, end);
        }
        return !ends;
    }
    void finish(const std::string &) override { ends = true; }
    void shut(const std::string &) override { ends = true; }
    bool is_ending() const override { return ends; }
    void wake() override { ++wakes; }
    ConnectionFacts facts() const override { return {"192.0.2.1:1", "", false}; }
    std::size_t waiting() const override { return waits; }

    // What was said since this was called last: of each message its number, its type, and 43
    // and 97.
    Calls heard() {
        Calls found;
        for (const std::string &message : messages) {
            const bool is_again = value_of(message, 43) == "Y";
            const bool is_copy = value_of(message, 97) == "Y";
            found.push_back(fmt::format("{} {}{}{}", value_of(message, 34), value_of(message, 35),
                                        is_again ? " again" : "", is_copy ? " copy" : ""));
        }
        last = messages;
        messages.clear();
        return found;
    }

    std::vector<std::string> messages; // since heard()
    std::vector<std::string> last;     // that heard() told of
    bool ends = false;
    int wakes = 0;
    std::size_t waits = 0; // bytes that the peer has not taken

  private:
    void take(const std::string &message) {
        const bool is_own = value_of(message, 1181).empty();
        const auto number = static_cast<std::uint32_t>(std::stoul(value_of(message, 34)));
        const bool is_again = value_of(message, 43) == "Y";
        check(!is_own || is_again || book_.is_stored(number), "not in the log: " + message);
        check(is_own || book_.is_entry_stored("F", place_of(message)),
              "ahead of its entry: " + message);
        check(value_of(message, 49) == "VENUE" && value_of(message, 56) == "F", message);
        messages.push_back(message);
    }

    // The entry for which the venue gave it, as Scene::give() has it.
    static std::uint32_t place_of(const std::string &message) {
        return static_cast<std::uint32_t>(std::stoul(value_of(message, 1181)));
    }

    Book &book_;
};

struct Talk;

// The session of firm F, and its host, at nine.
struct Scene {
    explicit Scene(const SessionNumbers *numbers = nullptr, bool is_open = true)
        : sessions({start_of(book, numbers, is_open)}, gate) {}

    static SessionStart start_of(Book &book, const SessionNumbers *numbers, bool is_open) {
        SessionStart start;
        start.firm = "F";
        start.date = today;
        start.host = &book;
        start.is_open = is_open;
        if (numbers != nullptr) {
            start.numbers = *numbers;
            book.numbers = *numbers;
        }
        return start;
    }

    FirmSession &session() { return sessions.of("F"); }
    // The venue gives a message: its n-th one.
    void give(std::uint32_t number, const std::string &type = "AI",
              const std::string &body = "297=9|");

    StillClock clock;
    Book book;
    Gate gate;
    Sessions sessions;
    std::vector<Talk *> talks; // that have not ended
};

inline void Scene::give(std::uint32_t number, const std::string &type, const std::string &body) {
    Delivery delivery;
    delivery.session = delivery.firm = "F";
    delivery.number = delivery.place = number;
    delivery.moment = 9 * 60 * 60 * 1000;
    delivery.type = type;
    delivery.wire = framed(with_soh(fmt::format("35={}|1181={}|{}", type, number, body)));
    sessions.deliver(delivery);
}

// A message of F.
inline std::string message_of(const std::string &type, const std::string &number,
                              const std::string &rest, const std::string &sent = nine) {
    return framed(
        with_soh(fmt::format("35={}|49=F|56=VENUE|34={}|52={}|{}", type, number, sent, rest)));
}
inline std::string message_of(const std::string &type, int number, const std::string &rest,
                              const std::string &sent = nine) {
    return message_of(type, std::to_string(number), rest, sent);
}

inline std::string logon_of(int number = 1, const std::string &more = "",
                            const std::string &sent = nine) {
    return message_of("A", number, "98=0|108=30|553=F|554=x|1137=9|" + more, sent);
}

// One connection of the scene.
struct Talk {
    explicit Talk(Scene &scene)
        : scene(scene), ear(scene.book), conversation(scene.sessions, scene.gate, ear) {
        scene.talks.push_back(this);
    }
    ~Talk() { end(); }
    Talk(const Talk &) = delete;
    Talk &operator=(const Talk &) = delete;

    void say(const std::string &bytes) {
        conversation.hear(bytes.data(), bytes.size(), std::chrono::system_clock::now());
        serve();
    }
    // What the connection's thread does when there is something to say.
    void serve() {
        do {
            conversation.serve();
        } while (conversation.serves_from());
    }
    void tick() {
        conversation.tick();
        serve();
    }
    void look() {
        if (conversation.waits()) {
            conversation.look_again();
        }
        tick();
    }
    // Time goes on, and the thread of each connection looks each second.
    void wait(int seconds) {
        for (int second = 0; second < seconds; ++second) {
            scene.clock.move(std::chrono::seconds(1));
            for (Talk *const talk : scene.talks) {
                talk->look();
            }
        }
    }
    // Logs on, and answers the TestRequest: its next number is 3, and that of the venue too.
    void settle() {
        say(logon_of());
        check_calls({"1 A", "2 1"}, ear.heard(), "what a Logon is answered");
        say(message_of("0", 2, "112=2|"));
        scene.book.calls.clear();
    }
    void end() {
        if (!std::exchange(ended_, true)) {
            std::erase(scene.talks, this);
            conversation.end("the peer closed");
        }
    }

    Scene &scene;
    Ear ear;
    Conversation conversation;

  private:
    bool ended_ = false;
};

} // namespace gateway::tests

#endif
