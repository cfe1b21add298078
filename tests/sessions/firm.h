// A firm: a stock QuickFIX initiator, and its store on disk.
#ifndef SESSIONS_FIRM_H
#define SESSIONS_FIRM_H

#include <quickfix/Application.h>
#include <quickfix/Log.h>
#include <quickfix/MessageStore.h>
#include <quickfix/Parser.h>
#include <quickfix/Responder.h>
#include <quickfix/Session.h>

#include <map>
#include <memory>
#include <string>

namespace sessions {

// What a firm's engine keeps: it outlives the engine.
struct Disk {
    std::map<int, std::string> messages;
    int next_sent = 1;
    int next_received = 1;
    FIX::UtcTimeStamp created;
};

// What a firm's application was given: a message of the venue's, or a Reject or a 35=j of one of
// its own.
struct Received {
    bool is_reject = false;
    std::string id;     // of the venue's message
    std::string number; // MsgSeqNum (34)
    std::string about;  // RefSeqNum (45) of a Reject
    bool is_again = false;
};

// Whoever carries the firm's bytes, and sees what its application is given.
class FirmCarrier {
  public:
    virtual ~FirmCarrier() = default;
    virtual void sent(const std::string &bytes) = 0;
    virtual void disconnected() = 0;
    virtual void received(const Received &message) = 0;
    virtual void logged_on() = 0;
    virtual void note(const std::string &text) = 0;
};

class Firm final : FIX::Application, FIX::Log, FIX::Responder {
  public:
    Firm(FirmCarrier &carrier, int heartbeat, std::string dictionary);
    ~Firm() override;

    // The engine starts, from what its disk has.
    void start();
    // The engine was killed before it wrote that it had received the last message.
    void forget_last();

    // A connection stands; bytes come on it; it is gone; nothing leaves on it any more.
    void connect();
    void take(const std::string &bytes);
    void lose();
    void detach() { engine_->setResponder(nullptr); }

    // A second of the engine's clock.
    void next();
    void log_out();
    void send(const std::string &id, bool is_bad);

    bool is_logged_on() const { return engine_->isLoggedOn(); }
    // Whether its Logons have 141=Y.
    void set_resets(bool resets) { resets_ = resets; }
    const Disk &disk() const { return disk_; }

  private:
    struct Stores;
    struct Logs;

    void clear() override {}
    void backup() override {}
    void onIncoming(const std::string &) override {}
    void onOutgoing(const std::string &) override {}
    void onEvent(const std::string &text) override { carrier_.note("   " + text); }

    void onCreate(const FIX::SessionID &) override {}
    void onLogon(const FIX::SessionID &) override { carrier_.logged_on(); }
    void onLogout(const FIX::SessionID &) override {}
    void toAdmin(FIX::Message &message, const FIX::SessionID &) override;
    void toApp(FIX::Message &, const FIX::SessionID &) throw(FIX::DoNotSend) override {}
    void fromAdmin(const FIX::Message &message,
                   const FIX::SessionID &) throw(FIX::FieldNotFound, FIX::IncorrectDataFormat,
                                                 FIX::IncorrectTagValue, FIX::RejectLogon) override;
    void fromApp(const FIX::Message &message,
                 const FIX::SessionID &) throw(FIX::FieldNotFound, FIX::IncorrectDataFormat,
                                               FIX::IncorrectTagValue,
                                               FIX::UnsupportedMessageType) override;
    bool send(const std::string &bytes) override;
    void disconnect() override;
    void given(const FIX::Message &message, const std::string &id);

    FirmCarrier &carrier_;
    int heartbeat_;
    std::string dictionary_;
    Disk disk_;
    std::unique_ptr<Stores> stores_;
    std::unique_ptr<Logs> logs_;
    std::unique_ptr<FIX::Session> engine_;
    FIX::Parser parser_;
    bool resets_ = false;
    bool is_connected_ = false;
    bool was_application_ = false; // the last message went to the application
};

} // namespace sessions

#endif
