// One TCP connection.
#ifndef GATEWAY_SESSION_CONNECTION_H
#define GATEWAY_SESSION_CONNECTION_H

#include "session/channel.h"
#include "session/conversation.h"
#include "session/engine_events.h"
#include "session/engine_settings.h"
#include "session/strangers.h"
#include "session/transport.h"
#include "session/turns.h"

#include <atomic>
#include <chrono>
#include <memory>
#include <mutex>
#include <string>
#include <string_view>
#include <thread>

namespace gateway {

// A thread reads and writes the connection, and has its conversation. Other threads leave bytes to
// be written, or shut it.
class Connection final : public Transport {
  public:
    using Clock = std::chrono::steady_clock;
    using Received = Conversation::Received;

    Connection(Descriptor socket, std::string peer, const TlsServer *tls, StrangerSlot slot,
               const Sessions &sessions, const EngineSettings &settings, EngineEvents &events);
    // Shuts it and waits for the thread.
    ~Connection() override;
    Connection(const Connection &) = delete;
    Connection &operator=(const Connection &) = delete;

    // Transport. Where more waits than may, the connection is shut: the firm does not read, and
    // what it was to be sent is kept for it.
    bool send(std::string_view bytes) override;
    void finish(const std::string &why) override;
    void shut(const std::string &why) override;
    bool is_ending() const override;
    void wake() override;
    ConnectionFacts facts() const override;
    std::size_t waiting() const override;
    void is_judged() override { slot_.judges(); }

    // Logs its firm out where that came with a certificate that this server does not take. Any
    // thread may call it.
    void renew(std::shared_ptr<const TlsServer> server);
    // Ends it now, unless a firm has logged on. Any thread may call it.
    void shut_stranger(const std::string &why);
    // The slot that it was given.
    Strangers::Slot slot() const { return given_; }
    bool has_ended() const { return ended_; }

  private:
    // How often a session looks at its clock.
    static constexpr auto tick = std::chrono::milliseconds(200);

    void run();
    void talk();
    bool shake_hands();
    Channel::Progress go_on_with_handshake();
    void turn();
    // Waits until there is something to read, where that is looked for, to write, or to look at.
    void wait(bool reads);
    bool is_held() const { return Clock::now() < reads_from_; }
    Clock::duration longest_wait() const;
    void read();
    void hear(std::string_view said, std::size_t count);
    void hear_nothing();
    void look_again();
    void serve(bool ticks);
    void write();
    void ring();
    bool is_late() const;
    void keep_time();
    void linger();
    bool pass_over(std::size_t &left);
    void look_at_certificate();
    Received firms_time() const;
    void time_goes_on_from(Received moment);
    std::string why() const;
    bool is_own_thread() const { return std::this_thread::get_id() == owner_.load(); }

    const std::string peer_;
    const Strangers::Slot given_;
    const bool tls_;
    const EngineSettings &settings_;
    EngineEvents &events_;
    StrangerSlot slot_; // of the connection's thread, too
    Channel channel_;
    Descriptor bell_;
    Turns &handshakes_;
    const Clock::time_point opened_;

    // Of the connection's thread.
    Conversation conversation_;
    std::string writing_;
    std::size_t written_ = 0;
    bool wants_write_ = false;
    bool is_blocked_ = false; // TLS has to answer before it reads on, and the peer takes nothing
    Clock::time_point progress_;
    Clock::time_point ticked_;
    Clock::time_point reads_from_;  // before it nothing is read: the firm is above its rate
    Clock::duration held_for_{};    // in all, since nothing of it waited the last time
    Received moment_{};             // of the firm's time, from which it goes on
    Clock::time_point goes_on_;     // since then
    std::size_t empty_records_ = 0; // before its Logon

    mutable std::mutex mutex_;
    std::shared_ptr<const TlsServer> renewed_; // that its certificate is to be shown to
    std::string waiting_;
    std::size_t unwritten_ = 0; // of waiting_ and writing_
    bool finishing_ = false;
    Clock::time_point finish_at_;
    std::string why_;

    std::atomic<bool> shut_{false};
    std::atomic<bool> admitted_{false};
    std::atomic<bool> ended_{false};
    std::atomic<std::thread::id> owner_{};
    std::thread thread_;
};

} // namespace gateway

#endif
