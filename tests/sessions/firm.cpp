#include "firm.h"

#include <quickfix/DataDictionaryProvider.h>
#include <quickfix/FixFields.h>
#include <quickfix/Message.h>
#include <quickfix/TimeRange.h>

#include <utility>
#include <vector>

namespace sessions {

namespace {

class DiskStore final : public FIX::MessageStore {
  public:
    explicit DiskStore(Disk &disk) : disk_(disk) {}

    bool set(int number, const std::string &bytes) throw(FIX::IOException) override {
        disk_.messages[number] = bytes;
        return true;
    }
    void get(int first, int last, std::vector<std::string> &found) const
        throw(FIX::IOException) override {
        found.clear();
        for (auto at = disk_.messages.lower_bound(first);
             at != disk_.messages.end() && at->first <= last; ++at) {
            found.push_back(at->second);
        }
    }
    int getNextSenderMsgSeqNum() const throw(FIX::IOException) override { return disk_.next_sent; }
    int getNextTargetMsgSeqNum() const throw(FIX::IOException) override {
        return disk_.next_received;
    }
    void setNextSenderMsgSeqNum(int number) throw(FIX::IOException) override {
        disk_.next_sent = number;
    }
    void setNextTargetMsgSeqNum(int number) throw(FIX::IOException) override {
        disk_.next_received = number;
    }
    void incrNextSenderMsgSeqNum() throw(FIX::IOException) override { ++disk_.next_sent; }
    void incrNextTargetMsgSeqNum() throw(FIX::IOException) override { ++disk_.next_received; }
    FIX::UtcTimeStamp getCreationTime() const throw(FIX::IOException) override {
        return disk_.created;
    }
    void reset() throw(FIX::IOException) override {
        disk_.next_sent = 1;
        disk_.next_received = 1;
        disk_.messages.clear();
        disk_.created.setCurrent();
    }
    void refresh() throw(FIX::IOException) override {}

  private:
    Disk &disk_;
};

bool is_yes(const FIX::FieldMap &fields, int tag) {
    return fields.isSetField(tag) && fields.getField(tag) == "Y";
}

} // namespace

struct Firm::Stores final : FIX::MessageStoreFactory {
    explicit Stores(Disk &disk) : disk(disk) {}
    FIX::MessageStore *create(const FIX::SessionID &) override {
        // QuickFIX gives it back by destroy.
        return std::make_unique<DiskStore>(disk).release();
    }
    void destroy(FIX::MessageStore *store) override {
        const std::unique_ptr<FIX::MessageStore> gone(store);
    }
    Disk &disk;
};

struct Firm::Logs final : FIX::LogFactory {
    explicit Logs(FIX::Log &log) : log(log) {}
    FIX::Log *create() override { return &log; }
    FIX::Log *create(const FIX::SessionID &) override { return &log; }
    void destroy(FIX::Log *) override {}
    FIX::Log &log;
};

Firm::Firm(FirmCarrier &carrier, int heartbeat, std::string dictionary)
    : carrier_(carrier), heartbeat_(heartbeat), dictionary_(std::move(dictionary)),
      stores_(std::make_unique<Stores>(disk_)) {
    FIX::Log &log = *this;
    logs_ = std::make_unique<Logs>(log);
}

Firm::~Firm() = default;

void Firm::start() {
    const FIX::TimeRange always(FIX::UtcTimeOnly(0, 0, 0), FIX::UtcTimeOnly(0, 0, 0));
    FIX::DataDictionaryProvider dictionaries;
    if (!dictionary_.empty()) {
        dictionaries.addTransportDataDictionary(FIX::BeginString("FIXT.1.1"), dictionary_);
    }
    engine_.reset(); // QuickFIX knows each session once
    is_connected_ = false;
    was_application_ = false;
    FIX::Application &application = *this;
    engine_ = std::make_unique<FIX::Session>(application, *stores_,
                                             FIX::SessionID("FIXT.1.1", "DLR1", "VENUE"),
                                             dictionaries, always, heartbeat_, logs_.get());
    engine_->setSenderDefaultApplVerID("9");
    engine_->setTimestampPrecision(3);
}

void Firm::forget_last() {
    if (was_application_ && disk_.next_received > 1) {
        --disk_.next_received;
    }
}

void Firm::connect() {
    parser_ = FIX::Parser();
    is_connected_ = true;
    engine_->logon();
    engine_->setResponder(this);
    engine_->next();
}

void Firm::take(const std::string &bytes) {
    parser_.addToStream(bytes.data(), bytes.size());
    std::string message;
    while (is_connected_) {
        try {
            if (!parser_.readFixMessage(message)) {
                break;
            }
        } catch (const FIX::MessageParseError &) {
            continue;
        }
        try {
            engine_->next(message, FIX::UtcTimeStamp());
        } catch (const FIX::InvalidMessage &) {
            if (!engine_->isLoggedOn()) {
                disconnect();
                engine_->disconnect();
            }
        }
    }
    if (!is_connected_) {
        detach();
    }
}

void Firm::lose() {
    engine_->disconnect();
    is_connected_ = false;
    detach();
}

void Firm::next() {
    engine_->next();
    if (!is_connected_) {
        detach();
    }
}

void Firm::log_out() {
    engine_->logout();
    next();
}

void Firm::send(const std::string &id, bool is_bad) {
    FIX::Message message;
    message.getHeader().setField(FIX::MsgType("S"));
    message.setField(117, id);
    if (is_bad) {
        message.setField(36, "x");
    }
    engine_->send(message);
    if (!is_connected_) {
        detach();
    }
}

void Firm::toAdmin(FIX::Message &message, const FIX::SessionID &) {
    if (message.getHeader().getField(35) != "A") {
        return;
    }
    message.setField(553, "dlr1");
    message.setField(554, "secret");
    if (resets_) {
        message.setField(141, "Y");
    }
}

void Firm::given(const FIX::Message &message, const std::string &id) {
    was_application_ = true;
    Received received;
    received.is_reject = id.empty();
    received.id = id;
    received.number = message.getHeader().getField(34);
    received.about = message.isSetField(45) ? message.getField(45) : "";
    received.is_again = is_yes(message.getHeader(), 43) || is_yes(message.getHeader(), 97);
    carrier_.received(received);
}

void Firm::fromAdmin(const FIX::Message &message,
                     const FIX::SessionID &) throw(FIX::FieldNotFound, FIX::IncorrectDataFormat,
                                                   FIX::IncorrectTagValue, FIX::RejectLogon) {
    was_application_ = false;
    if (message.getHeader().getField(35) == "3") {
        // The venue's own have an id in Text (58), those of the session none.
        const bool is_venues = message.isSetField(58) && message.getField(58)[0] == 'v';
        given(message, is_venues ? message.getField(58) : std::string());
    }
}

void Firm::fromApp(const FIX::Message &message,
                   const FIX::SessionID &) throw(FIX::FieldNotFound, FIX::IncorrectDataFormat,
                                                 FIX::IncorrectTagValue,
                                                 FIX::UnsupportedMessageType) {
    const bool is_denial = message.getHeader().getField(35) == "j";
    given(message, is_denial ? std::string() : message.getField(117));
}

bool Firm::send(const std::string &bytes) {
    carrier_.sent(bytes);
    return true;
}

void Firm::disconnect() {
    if (is_connected_) {
        is_connected_ = false;
        carrier_.disconnected();
    }
}

} // namespace sessions
