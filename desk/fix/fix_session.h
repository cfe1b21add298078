// One firm's FIX session with the venue. No other part of the desk sees more of QuickFIX than this
// and session_store.h: its headers have dynamic exception specifications, which end with C++14.
#ifndef DESK_FIX_FIX_SESSION_H
#define DESK_FIX_FIX_SESSION_H

#include "session_store.h"

#include <memory>
#include <string>
#include <utility>
#include <vector>

namespace desk {

// A field of a message: its tag and its value.
using FixField = std::pair<int, std::string>;

struct FixAddress {
    std::string host;
    int port = 0;
};

// Files in PEM. No certificate of the firm's own where the second is empty.
struct FixTls {
    std::string authorities;
    std::string certificate;
    std::string key;
};

struct FixSettings {
    std::vector<FixAddress> addresses; // of which one listens
    bool has_tls = false;
    FixTls tls;
    std::string firm;         // SenderCompID (49)
    std::string username;     // 553
    std::string password;     // 554
    std::string dictionaries; // the folder of FIXT11.xml and MIRESEASON.xml
};

// Who hears of the session. Calls come from QuickFIX's threads.
class FixListener {
  public:
    virtual ~FixListener() = default;
    // A message of the venue, or its Reject. QuickFIX counts it only after this has returned.
    virtual void received(const std::string &raw) = 0;
    // A message of the firm's is on the disk. False: that took too long, and it is never delivered.
    virtual bool may_leave(const std::string &raw) = 0;
    // The venue asks for a message again. False: it is never delivered, and its number is filled.
    virtual bool may_send_again(const std::string &raw) = 0;
    virtual void logged_on(bool is_on) = 0;
    // What a person may be told of the connection.
    virtual void event(const std::string &text) = 0;
};

class FixSession {
  public:
    // Store and listener have to outlive it. Throws std::runtime_error.
    FixSession(const FixSettings &settings, SessionStore &store, FixListener &listener);
    ~FixSession();
    FixSession(const FixSession &) = delete;
    FixSession &operator=(const FixSession &) = delete;

    void start();
    void stop();
    bool is_on() const;

    // Sends the fields in order, in a trader's name (50). Those of a request (35=R) but its 131
    // stand in its one group, with the dealers that are asked. Where the session is down, the
    // message has its number, and the venue asks for it later.
    void send(const std::string &type, const std::string &trader,
              const std::vector<FixField> &fields, const std::vector<std::string> &dealers = {});

  private:
    class Engine;
    std::unique_ptr<Engine> engine_;
};

} // namespace desk

#endif
