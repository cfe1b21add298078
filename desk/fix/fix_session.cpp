#include "fix_session.h"

#include "kept_store.h"

#include <quickfix/Application.h>
#include <quickfix/Log.h>
#include <quickfix/Session.h>
#include <quickfix/SocketInitiator.h>
#include <quickfix/ThreadedSSLSocketInitiator.h>
#include <quickfix/fix50sp2/QuoteRequest.h>

#include <sstream>
#include <stdexcept>

namespace desk {

namespace {

void put_addresses(std::ostream &text, const std::vector<FixAddress> &addresses) {
    for (std::size_t at = 0; at < addresses.size(); ++at) {
        const std::string place = at == 0 ? std::string() : std::to_string(at);
        text << "SocketConnectHost" << place << '=' << addresses[at].host << "\nSocketConnectPort"
             << place << '=' << addresses[at].port << '\n';
    }
}

void put_tls(std::ostream &text, const FixTls &tls) {
    text << "SSLProtocol=TLSv1_2\nCertificationAuthoritiesFile=" << tls.authorities << '\n';
    if (!tls.certificate.empty()) {
        text << "ClientCertificateFile=" << tls.certificate
             << "\nClientCertificateKeyFile=" << tls.key << '\n';
    }
}

// SocketNodelay: without it a hit behind another message waits for 40 ms.
FIX::SessionSettings settings_of(const FixSettings &own) {
    std::stringstream text;
    text << "[DEFAULT]\nConnectionType=initiator\nSocketNodelay=Y\nReconnectInterval=2\n"
            "HeartBtInt=10\nStartTime=00:00:00\nEndTime=00:00:00\nUseDataDictionary=Y\n"
            "TransportDataDictionary="
         << own.dictionaries << "/FIXT11.xml\nAppDataDictionary=" << own.dictionaries
         << "/MIRESEASON.xml\n";
    put_addresses(text, own.addresses);
    if (own.has_tls) {
        put_tls(text, own.tls);
    }
    text << "[SESSION]\nBeginString=FIXT.1.1\nDefaultApplVerID=9\nSenderCompID=" << own.firm
         << "\nTargetCompID=VENUE\n";
    return FIX::SessionSettings(text);
}

std::string type_of(const FIX::Message &message) {
    return message.getHeader().getField(FIX::FIELD::MsgType);
}

bool is_again(const FIX::Message &message) {
    return message.getHeader().isSetField(FIX::FIELD::PossDupFlag) &&
           message.getHeader().getField(FIX::FIELD::PossDupFlag) == "Y";
}

// QuickFIX's events, but not its messages: a Logon has the password.
class Events final : public FIX::Log, public FIX::LogFactory {
  public:
    explicit Events(FixListener &listener) : listener_(listener) {}
    FIX::Log *create() override { return this; }
    FIX::Log *create(const FIX::SessionID &) override { return this; }
    void destroy(FIX::Log *) override {}
    void clear() override {}
    void backup() override {}
    void onIncoming(const std::string &) override {}
    void onOutgoing(const std::string &) override {}
    void onEvent(const std::string &text) override { listener_.event(text); }

  private:
    FixListener &listener_;
};

FIX::Message request_of(const std::vector<FixField> &fields,
                        const std::vector<std::string> &dealers) {
    FIX::Message message;
    FIX50SP2::QuoteRequest::NoRelatedSym line;
    for (const FixField &field : fields) {
        FIX::FieldMap &place =
            field.first == FIX::FIELD::QuoteReqID ? static_cast<FIX::FieldMap &>(message) : line;
        place.setField(field.first, field.second);
    }
    for (const std::string &dealer : dealers) {
        FIX50SP2::QuoteRequest::NoRelatedSym::NoPartyIDs party;
        party.setField(FIX::PartyID(dealer));
        party.setField(FIX::PartyIDSource('D'));
        party.setField(FIX::PartyRole(35));
        line.addGroup(party);
    }
    message.addGroup(line);
    return message;
}

FIX::Message message_of(const std::vector<FixField> &fields) {
    FIX::Message message;
    for (const FixField &field : fields) {
        message.setField(field.first, field.second);
    }
    return message;
}

} // namespace

class FixSession::Engine final : public FIX::Application {
  public:
    Engine(const FixSettings &own, SessionStore &store, FixListener &listener)
        : own_(own), store_(store), listener_(listener), events_(listener),
          settings_(settings_of(own)), stores_(store) {
        if (own.has_tls) {
            initiator_ = std::make_unique<FIX::ThreadedSSLSocketInitiator>(*this, stores_,
                                                                           settings_, events_);
        } else {
            initiator_ = std::make_unique<FIX::SocketInitiator>(*this, stores_, settings_, events_);
        }
        session_ = FIX::Session::lookupSession(id_);
        session_->setTimestampPrecision(3);
    }

    FIX::Initiator &initiator() { return *initiator_; }
    FIX::Session &session() const { return *session_; }
    const FIX::SessionID &id() const { return id_; }

  private:
    void onCreate(const FIX::SessionID &id) override { id_ = id; }
    void onLogon(const FIX::SessionID &) override { listener_.logged_on(true); }
    void onLogout(const FIX::SessionID &) override { listener_.logged_on(false); }

    void toAdmin(FIX::Message &message, const FIX::SessionID &) override {
        if (type_of(message) == "A") {
            message.setField(FIX::Username(own_.username));
            message.setField(FIX::Password(own_.password));
        }
    }

    void toApp(FIX::Message &message, const FIX::SessionID &) throw(FIX::DoNotSend) override {
        if (!is_again(message)) {
            keep(message);
        } else if (!listener_.may_send_again(message.toString())) {
            throw FIX::DoNotSend();
        }
    }

    // While the disk is waited for here, what the venue sends is taken.
    void keep(FIX::Message &message) {
        const std::string raw = message.toString();
        const int number = std::stoi(message.getHeader().getField(FIX::FIELD::MsgSeqNum));
        store_.keep(number, true, raw);
        if (!listener_.may_leave(raw)) {
            session_->setNextSenderMsgSeqNum(number + 1); // the venue asks for it, and it is filled
            throw FIX::DoNotSend();
        }
    }

    void fromAdmin(const FIX::Message &message,
                   const FIX::SessionID &) throw(FIX::FieldNotFound, FIX::IncorrectDataFormat,
                                                 FIX::IncorrectTagValue,
                                                 FIX::RejectLogon) override {
        const std::string type = type_of(message);
        if (type == "3") {
            listener_.received(message.toString());
        } else if (type == "5" && message.isSetField(FIX::FIELD::Text)) {
            listener_.event("Logged out by the venue: " + message.getField(FIX::FIELD::Text));
        }
    }

    void fromApp(const FIX::Message &message,
                 const FIX::SessionID &) throw(FIX::FieldNotFound, FIX::IncorrectDataFormat,
                                               FIX::IncorrectTagValue,
                                               FIX::UnsupportedMessageType) override {
        listener_.received(message.toString());
    }

    const FixSettings own_;
    SessionStore &store_;
    FixListener &listener_;
    Events events_;
    FIX::SessionSettings settings_;
    KeptStoreFactory stores_;
    FIX::SessionID id_;
    std::unique_ptr<FIX::Initiator> initiator_;
    FIX::Session *session_ = nullptr;
};

FixSession::FixSession(const FixSettings &settings, SessionStore &store, FixListener &listener) {
    try {
        engine_ = std::make_unique<Engine>(settings, store, listener);
    } catch (const FIX::Exception &fault) {
        throw std::runtime_error(std::string("the FIX session: ") + fault.what());
    }
}

FixSession::~FixSession() = default;

void FixSession::start() {
    engine_->initiator().start();
}

void FixSession::stop() {
    engine_->initiator().stop();
}

bool FixSession::is_on() const {
    return engine_->session().isLoggedOn();
}

void FixSession::send(const std::string &type, const std::string &trader,
                      const std::vector<FixField> &fields,
                      const std::vector<std::string> &dealers) {
    FIX::Message message = type == "R" ? request_of(fields, dealers) : message_of(fields);
    message.getHeader().setField(FIX::BeginString("FIXT.1.1"));
    message.getHeader().setField(FIX::MsgType(type));
    message.getHeader().setField(FIX::SenderSubID(trader));
    FIX::Session::sendToTarget(message, engine_->id());
}

} // namespace desk
