// One of two sessions that talk: what it was given, what it counted, and the laws.
#ifndef SESSIONS_TALK_SIDE_H
#define SESSIONS_TALK_SIDE_H

#include "laws.h"

#include <functional>
#include <set>
#include <string>
#include <vector>

namespace sessions {

// What a side does with its end of the line.
struct Ends {
    std::function<void(int connection, const std::string &bytes)> send;
    std::function<void(int connection)> close;
    std::function<bool()> takes; // whether the gateway takes a message
};

class Side final : private Carrier {
  public:
    // A side that is called begins no connection, and knows its peer by a password. The other one's
    // Logons are made by use_number(), and it knows who answers.
    Side(const Names &names, bool is_called, Ends ends);

    Venue &session() { return session_; }
    // It gives a message: one that its peer takes, one that it rejects, or a Reject.
    enum class What { good, bad, reject };
    void give(What what);

    // What is wrong with what it heard of its peer: nothing where everything came once and in
    // order.
    std::string wrong_of(const Side &peer) const;

  private:
    void send(int connection, const std::string &bytes) override;
    void close(int connection) override { ends_.close(connection); }
    void accepted(int) override {}
    void taken(const std::string &frame) override;
    bool takes(const std::string &frame) override;
    void rejected(const std::string &, bool) override {}
    void rejects_dropped() override {}
    void note(const std::string &) override {}
    bool knows(const Question &asked) const override;
    void saw(const Seen &seen) override;

    const bool is_called_;
    const Ends ends_;
    Laws laws_;
    std::vector<std::string> given_;    // ids
    std::vector<std::string> to_take_;  // of these, what is good
    std::vector<std::string> answered_; // 35 and 45 of each Reject and 35=j that it keeps
    std::vector<std::string> heard_;    // ids of the peer's, counted
    std::vector<std::string> told_;     // 35 and 45 of each Reject and 35=j of the peer, counted
    std::vector<std::string> taken_;
    std::set<std::string> denied_;
    Venue session_;
};

} // namespace sessions

#endif
