// The FIX sessions, over TCP or TLS: connections, and a machine for each firm's session.
#ifndef GATEWAY_SESSION_ENGINE_H
#define GATEWAY_SESSION_ENGINE_H

#include "session/engine_events.h"
#include "session/engine_settings.h"
#include "session/listening_port.h"
#include "session/session_start.h"

#include <cstddef>
#include <memory>
#include <string>
#include <vector>

namespace gateway {

// One session a firm and venue, VENUE to it. Each connection has a thread of its own.
class Engine {
  public:
    // Throws std::runtime_error where a certificate or a key can't be used.
    Engine(const EngineSettings &settings, const std::vector<SessionStart> &sessions,
           EngineEvents &events);
    ~Engine();
    Engine(const Engine &) = delete;
    Engine &operator=(const Engine &) = delete;

    // More sessions, before listen() and before anything is delivered to them.
    void add(const std::vector<SessionStart> &sessions);
    std::size_t sessions() const;

    // Takes connections from now on. Throws std::runtime_error where the address can't be had.
    void listen();
    // The same at a port that another engine has given, where that is at this engine's address.
    void listen(ListeningPort port);
    // Takes no more connections, and gives the port as it is. The next call is stop().
    ListeningPort give_port();

    // Gives a message to its session: it is kept under the session's next number, and sent if the
    // firm is there and has all before it, or with those that follow at once. One thread at a time
    // for one firm. Throws what the host throws.
    void deliver(const Delivery &delivery, bool more_follow = false);
    // The same, but where that had to wait for another event of the session: then false, and
    // nothing was done.
    bool deliver_at_once(const Delivery &delivery);
    // More entries are on disk: what waited for them leaves. Waits for nothing.
    void send_held_back(const std::string &session);
    // Bytes that the firm has not taken yet.
    std::size_t waiting_bytes(const std::string &session) const;
    // Ends the firm's connection, if there is one. Does not wait for anything.
    void disconnect(const std::string &session);
    // Logs the firm out, if it is there, for this reason. Does not wait for it.
    void log_out(const std::string &session, const std::string &reason);
    // What an operator orders of a firm's session. It is suspended: logged out, and its Logons are
    // refused, until it is resumed. The lock of an engine that lost its store ends. Its numbers
    // begin at 1 again, and its connection ends.
    void suspend(const std::string &session);
    void resume(const std::string &session);
    // These with the place of the operator's act in the log.
    void release(const std::string &session, std::uint32_t act);
    void reset(const std::string &session, std::uint32_t act);
    // Shows this certificate from now on, and asks for these; who is there with one that is not
    // taken any more is logged out. Throws std::runtime_error where a file can't be used: then
    // nothing was done.
    void renew(const EngineSettings &settings);

    // No new connections, and all sessions are logged out, for this reason; where it is empty the
    // connections end at once. Returns when all connections have ended.
    void stop(const std::string &reason);

  private:
    class Parts;
    std::unique_ptr<Parts> parts_;
};

} // namespace gateway

#endif
