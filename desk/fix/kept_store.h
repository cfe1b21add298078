// Gives QuickFIX a SessionStore in the form that it wants.
#ifndef DESK_FIX_KEPT_STORE_H
#define DESK_FIX_KEPT_STORE_H

#include "session_store.h"

#include <quickfix/MessageStore.h>

namespace desk {

class KeptStore final : public FIX::MessageStore {
  public:
    explicit KeptStore(SessionStore &store);

    bool set(int number, const std::string &raw) throw(FIX::IOException) override;
    void get(int first, int last, std::vector<std::string> &messages) const
        throw(FIX::IOException) override;
    int getNextSenderMsgSeqNum() const throw(FIX::IOException) override { return sender_; }
    int getNextTargetMsgSeqNum() const throw(FIX::IOException) override { return target_; }
    void setNextSenderMsgSeqNum(int number) throw(FIX::IOException) override { sender_ = number; }
    void setNextTargetMsgSeqNum(int number) throw(FIX::IOException) override { target_ = number; }
    void incrNextSenderMsgSeqNum() throw(FIX::IOException) override { ++sender_; }
    void incrNextTargetMsgSeqNum() throw(FIX::IOException) override { ++target_; }
    FIX::UtcTimeStamp getCreationTime() const throw(FIX::IOException) override;
    void reset() throw(FIX::IOException) override;
    void refresh() throw(FIX::IOException) override {}

  private:
    bool is_kept(int number, const std::string &raw) const;

    SessionStore &store_;
    int sender_;
    int target_;
};

// Gives the one session of the program its store.
class KeptStoreFactory final : public FIX::MessageStoreFactory {
  public:
    explicit KeptStoreFactory(SessionStore &store) : store_(store) {}
    FIX::MessageStore *create(const FIX::SessionID &) override { return new KeptStore(store_); }
    void destroy(FIX::MessageStore *store) override { delete store; }

  private:
    SessionStore &store_;
};

} // namespace desk

#endif
