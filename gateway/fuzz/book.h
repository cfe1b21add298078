// The oracle of the fuzzer: it notes what sessions do for a firm, and ends the process if nobody
// has shown that firm's password on the connection.
#ifndef GATEWAY_FUZZ_BOOK_H
#define GATEWAY_FUZZ_BOOK_H

#include "rig.h"
#include "session/session_host.h"

#include <map>
#include <set>
#include <string>
#include <vector>

namespace gateway::fuzz {

// Ends the process, and says what was wrong.
[[noreturn]] void violated(const std::string &what);

// Whom the sessions ask, and what they have done: each call is held against who has shown the right
// password on the connection that speaks. What a call would change is noted in trace().
class Book final : public SessionHost {
  public:
    explicit Book(Password password) : password_(password) {}

    // The connection that speaks from now on; 0 for none, where messages of the venue come.
    void speaks(unsigned connection) { speaker_ = connection; }
    // All that it brings.
    void brings(unsigned connection, const std::string &bytes) { brought_[connection] = bytes; }
    // The connection has ended: nothing is done for it any more.
    void ended(unsigned connection);
    // Bytes that are written to a connection.
    void sent(unsigned connection, const std::string &bytes);
    const std::string &trace() const { return trace_; }

    Refusal judge(const LogonFacts &facts) override;
    std::uint32_t logon_accepted(const std::string &firm, const ConnectionFacts &facts) override;
    void logon_refused(const std::string &firm, const ConnectionFacts &facts,
                       const std::string &why) override;
    void connection_ended(const std::string &firm, std::uint32_t connection,
                          const std::string &why) override;
    void logged_on(const std::string &firm) override;
    void logged_off(const std::string &firm) override;
    std::uint64_t put(const std::string &firm, const SessionEvent &event) override;
    void wait_stored(std::uint64_t) override {}
    Taken take(const std::string &firm, const SessionInput &input,
               const SessionEvent &event) override;
    void all_received() override {}
    std::vector<KeptMessage> kept_messages(const std::string &firm, std::uint32_t from,
                                           std::size_t limit) override;

  private:
    // What a firm has.
    struct Firm {
        unsigned holder = 0;      // the connection whose Logon was accepted, 0 without one
        bool is_told = false;     // a Logout was sent on it
        std::uint32_t number = 0; // that this connection was given
        SessionNumbers numbers;
        std::uint32_t received = 0; // the number of the last message that the venue was given
        std::uint32_t left = 0;     // of the last one of the venue that left for the first time
        std::map<std::uint32_t, KeptMessage> kept;
    };

    void need_holder(const char *what, const std::string &firm);
    void need_password(const char *what, const std::string &firm) const;
    void need_logon(const std::string &firm) const;
    void look_at_numbers(const std::string &firm, const SessionNumbers &now);
    void look_at_sent(const std::string &firm, const std::string &message);
    bool brings_any(const std::string &field) const;
    void note(const std::string &text);

    const Password password_;
    unsigned speaker_ = 0;
    std::uint32_t numbers_ = 0; // of connections
    // By connection, the firm whose right password came on it.
    std::map<unsigned, std::string> shown_;
    std::map<unsigned, std::string> brought_;
    std::set<unsigned> refused_; // connections on which a Logon was refused
    std::map<std::string, Firm> firms_;
    std::string trace_;
};

} // namespace gateway::fuzz

#endif
