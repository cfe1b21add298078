#include "rig.h"

#include "book.h"
#include "session/conversation.h"
#include "session/engine_events.h"
#include "session/sessions.h"
#include "session/transport.h"
#include "strict.h"

#include <algorithm>
#include <list>
#include <memory>

namespace gateway::fuzz {

namespace {

using Clock = std::chrono::system_clock;

// What comes over the network is the same however it is cut.
constexpr std::size_t short_piece = 7;

class Unheard final : public EngineEvents {
  public:
    void connection_opened(const std::string &) override {}
    void connection_closed(const std::string &) override {}
    void stranger(const ConnectionFacts &, const std::string &, const std::string &) override {}
    void refused(const std::string &, const std::string &) override {}
    void dropped(const std::string &, const std::string &) override {}
};

// One connection, without a network.
class Caller final : public Transport {
  public:
    Caller(unsigned number, const Sessions &sessions, Unheard &events, Book &book)
        : number_(number), book_(book), talk_(sessions, events, *this) {}

    void say(const std::string &bytes, std::size_t piece) {
        book_.brings(number_, bytes);
        book_.speaks(number_);
        for (std::size_t at = 0; at < bytes.size() && !is_ending_; at += piece) {
            const std::size_t count = std::min(piece, bytes.size() - at);
            talk_.hear(bytes.data() + at, count, Clock::now());
            serve();
        }
        book_.speaks(0);
    }
    // Where it waits for another connection of its firm.
    bool waits() const { return talk_.waits(); }
    void look_again() {
        book_.speaks(number_);
        talk_.look_again();
        serve();
        book_.speaks(0);
    }
    // What the thread of the connection does when the session has something to say.
    void look() {
        book_.speaks(number_);
        serve();
        book_.speaks(0);
    }
    void hang_up() {
        book_.speaks(number_);
        if (!is_ending_) {
            talk_.tick();
            serve();
        }
        is_ending_ = true;
        talk_.end("the peer closed");
        has_ended_ = true;
        book_.ended(number_);
        book_.speaks(0);
    }
    bool has_ended() const { return has_ended_; }

    bool send(std::string_view bytes) override {
        if (has_ended_) {
            violated("written to a connection that has ended: " + std::string(bytes));
        }
        book_.sent(number_, std::string(bytes));
        return !is_ending_;
    }
    void finish(const std::string &) override { is_ending_ = true; }
    void shut(const std::string &) override { is_ending_ = true; }
    bool is_ending() const override { return is_ending_; }
    void wake() override {}
    ConnectionFacts facts() const override { return {"192.0.2.1:1", "", false}; }

  private:
    void serve() {
        do {
            talk_.serve();
        } while (talk_.serves_from());
    }

    const unsigned number_;
    Book &book_;
    Conversation talk_;
    bool is_ending_ = false;
    bool has_ended_ = false;
};

std::vector<SessionStart> starts(Book &book) {
    std::vector<SessionStart> all(2);
    for (SessionStart &start : all) {
        start.date = "20250314";
        start.host = &book;
    }
    all[0].firm = "F";
    all[1].firm = "G";
    return all;
}

// A message of the venue for each firm: also where nobody is there to be sent it.
void deliver(const Sessions &sessions, std::uint32_t number) {
    for (const char *firm : {"F", "G"}) {
        Delivery delivery;
        delivery.session = delivery.firm = firm;
        delivery.number = delivery.place = number;
        delivery.type = "AI";
        const std::string body = "35=AI\x01"
                                 "1181=" +
                                 std::to_string(number) +
                                 "\x01"
                                 "297=9\x01";
        delivery.wire = framed(body);
        sessions.deliver(delivery);
    }
}

// Ends a connection, or all but one, so that the one that waits for it may go on.
void end_others(std::list<Caller> &callers, const Caller *kept) {
    for (Caller &caller : callers) {
        if (&caller != kept && !caller.has_ended()) {
            caller.hang_up();
        }
    }
}

} // namespace

std::string run_connections(const std::vector<Bytes> &connections, Password password, Cut cut) {
    Book book(password);
    Unheard events;
    const Sessions sessions(starts(book), events);
    std::list<Caller> callers;
    unsigned number = 0;
    for (const Bytes &connection : connections) {
        callers.emplace_back(++number, sessions, events, book);
        Caller &caller = callers.back();
        caller.say(connection.bytes, cut == Cut::whole ? std::string::npos : short_piece);
        if (caller.waits()) {
            caller.look_again();
            end_others(callers, &caller);
            caller.look_again();
        }
        deliver(sessions, number);
        for (Caller &each : callers) {
            if (!each.has_ended()) {
                each.look();
            }
        }
        if (connection.ends) {
            end_others(callers, nullptr);
        }
    }
    end_others(callers, nullptr);
    return book.trace();
}

} // namespace gateway::fuzz
