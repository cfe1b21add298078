// The messages that wait for one firm's session: which leave together, who waits where there are
// too many, and what becomes of them where one can't be handed over.
#define DOCTEST_CONFIG_IMPLEMENT_WITH_MAIN
#include <doctest/doctest.h>

#include "check.h"
#include "firms/mailbox.h"

#include <atomic>
#include <chrono>
#include <condition_variable>
#include <future>
#include <mutex>
#include <optional>
#include <stdexcept>
#include <string>
#include <utility>
#include <vector>

#include <fmt/format.h>

namespace gateway::tests {

namespace {

using namespace std::chrono_literals;

constexpr auto longest = 60s;

Delivery message(std::uint32_t number) {
    Delivery made;
    made.number = number;
    return made;
}

// A session that is at work on what it is handed until it is let go. A message is told as
// `NUMBER`, with a `+` behind it where more follow at once, and a `!` where it came at once.
class Session {
  public:
    Handover handover() {
        return {[this](const Delivery &delivery, bool more_follow) {
                    come(fmt::format("{}{}", delivery.number, more_follow ? "+" : ""));
                },
                [this](const Delivery &delivery) {
                    if (has_other_work) {
                        return false;
                    }
                    come(fmt::format("{}!", delivery.number));
                    return true;
                },
                [this] {
                    const std::lock_guard lock(mutex_);
                    ++disconnected_;
                    changed_.notify_all();
                }};
    }
    void hold() {
        const std::lock_guard lock(mutex_);
        holds_ = true;
    }
    void let_go() {
        const std::lock_guard lock(mutex_);
        holds_ = false;
        changed_.notify_all();
    }
    // Waits until so many messages have come to it.
    void wait_for(std::size_t count) {
        std::unique_lock lock(mutex_);
        check(changed_.wait_for(lock, longest, [&] { return came_.size() >= count; }),
              "no message comes");
    }
    void wait_for_end() {
        std::unique_lock lock(mutex_);
        check(changed_.wait_for(lock, longest, [&] { return disconnected_ > 0; }),
              "it is not disconnected");
    }
    std::vector<std::string> came() {
        const std::lock_guard lock(mutex_);
        return came_;
    }
    int disconnected() {
        const std::lock_guard lock(mutex_);
        return disconnected_;
    }

    // Of each message; set before anything comes.
    std::optional<std::string> fault;
    std::atomic<bool> has_other_work{false};

  private:
    void come(const std::string &told) {
        std::unique_lock lock(mutex_);
        came_.push_back(told);
        changed_.notify_all();
        changed_.wait(lock, [&] { return !holds_; });
        if (fault) {
            throw std::runtime_error(*fault);
        }
    }

    std::mutex mutex_;
    std::condition_variable changed_;
    std::vector<std::string> came_;
    int disconnected_ = 0;
    bool holds_ = false;
};

const auto nobody = [](const std::string &cause) { FAIL(cause); };

// What comes of so many messages that wait while the session is at work on another.
std::vector<std::string> leaving(std::uint32_t count) {
    Session session;
    session.hold();
    Mailbox mailbox(session.handover(), 1000, nobody);
    mailbox.put(message(0));
    session.wait_for(1);
    for (std::uint32_t number = 1; number <= count; ++number) {
        mailbox.put(message(number));
    }
    session.let_go();
    mailbox.wait_until_empty();
    return session.came();
}

// The last one holds none back, and 32 at most wait for another.
TEST_CASE("which messages leave together") {
    for (const std::uint32_t count : {0U, 1U, 2U, 32U, 33U, 34U, 66U, 70U}) {
        std::vector<std::string> wanted{"0"};
        for (std::uint32_t number = 1; number <= count; ++number) {
            const bool is_held = number % 33 != 0 && number != count;
            wanted.push_back(fmt::format("{}{}", number, is_held ? "+" : ""));
        }
        CHECK(leaving(count) == wanted);
    }
}

// By whoever puts it there, where nothing is before it; and in their order anyway.
TEST_CASE("a message that is handed over at once") {
    Session session;
    Mailbox mailbox(session.handover(), 1000, nobody);
    mailbox.put_now(message(1));
    CHECK(session.came() == std::vector<std::string>{"1!"});
    session.has_other_work = true;
    mailbox.put_now(message(2));
    mailbox.wait_until_empty();
    CHECK(session.came() == std::vector<std::string>{"1!", "2"});
    session.has_other_work = false;
    session.hold();
    mailbox.put(message(3));
    session.wait_for(3);
    mailbox.put_now(message(4));
    session.let_go();
    mailbox.wait_until_empty();
    CHECK(session.came() == std::vector<std::string>{"1!", "2", "3", "4"});
}

// Its own thread hands over nothing meanwhile.
TEST_CASE("what comes while one is handed over at once") {
    Session session;
    session.hold();
    Mailbox mailbox(session.handover(), 1000, nobody);
    auto first = std::async(std::launch::async, [&] { mailbox.put_now(message(1)); });
    session.wait_for(1);
    mailbox.put(message(2));
    mailbox.put_now(message(3));
    CHECK(session.came() == std::vector<std::string>{"1!"});
    auto empty = std::async(std::launch::async, [&] { mailbox.wait_until_empty(); });
    CHECK(empty.wait_for(0s) == std::future_status::timeout);
    session.let_go();
    first.get();
    empty.get();
    CHECK(session.came() == std::vector<std::string>{"1!", "2+", "3"});
}

// Two may wait: the connection ends with the third, which waits for room.
TEST_CASE("a session that is too slow") {
    Session session;
    session.hold();
    Mailbox mailbox(session.handover(), 2, nobody);
    mailbox.put(message(1));
    session.wait_for(1);
    mailbox.put(message(2));
    mailbox.put(message(3));
    CHECK(session.disconnected() == 0);
    auto fourth = std::async(std::launch::async, [&] { mailbox.put(message(4)); });
    session.wait_for_end();
    CHECK(fourth.wait_for(0s) == std::future_status::timeout);
    session.let_go();
    fourth.get();
    mailbox.wait_until_empty();
    CHECK(session.came().size() == 4);
    CHECK(session.disconnected() == 1);
}

// What the session is given of five messages, of which the first can't be handed over, and what is
// told then.
std::pair<std::vector<std::string>, std::vector<std::string>> failing(const char *fault,
                                                                      bool is_at_once) {
    Session session;
    session.fault = fault;
    std::vector<std::string> told;
    {
        Mailbox mailbox(session.handover(), 1,
                        [&](const std::string &cause) { told.push_back(cause); });
        if (is_at_once) {
            mailbox.put_now(message(1));
        } else {
            mailbox.put(message(1));
        }
        session.wait_for(1);
        for (std::uint32_t number = 2; number <= 5; ++number) {
            mailbox.put_now(message(number));
        }
        mailbox.wait_until_empty();
    }
    return {session.came(), told};
}

// Nobody waits for what will never be handed over, nothing is handed over behind it, and the cause
// is told once: also where it says nothing.
TEST_CASE("a message that can't be handed over") {
    using Texts = std::vector<std::string>;
    for (const char *fault : {"the log takes nothing", ""}) {
        CHECK(failing(fault, true) == std::pair(Texts{"1!"}, Texts{fault}));
        CHECK(failing(fault, false) == std::pair(Texts{"1"}, Texts{fault}));
    }
}

} // namespace

} // namespace gateway::tests
