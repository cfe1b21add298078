#include "kept_store.h"

#include <quickfix/Message.h>

namespace desk {

namespace {

// The password of a Logon is kept nowhere; a Logon is never sent again.
std::string without_password(const std::string &raw) {
    FIX::Message message(raw, false);
    message.removeField(FIX::FIELD::Username);
    message.removeField(FIX::FIELD::Password);
    return message.toString();
}

} // namespace

KeptStore::KeptStore(SessionStore &store)
    : store_(store), sender_(store.next_sent()), target_(store.next_received()) {}

bool KeptStore::set(int number, const std::string &raw) throw(FIX::IOException) {
    const std::string type = FIX::Message(raw, false).getHeader().getField(FIX::FIELD::MsgType);
    const bool is_application = !FIX::Message::isAdminMsgType(FIX::MsgType(type));
    if (!is_kept(number, raw)) {
        store_.keep(number, is_application, type == "A" ? without_password(raw) : raw);
    }
    return true;
}

// What leaves is kept before QuickFIX has the lock that it holds here, and needs for what comes.
bool KeptStore::is_kept(int number, const std::string &raw) const {
    const auto kept = store_.kept(number, number);
    return !kept.empty() && kept.front().second == raw;
}

void KeptStore::get(int first, int last, std::vector<std::string> &messages) const
    throw(FIX::IOException) {
    messages.clear();
    for (std::pair<int, std::string> &message : store_.kept(first, last)) {
        messages.push_back(std::move(message.second));
    }
}

FIX::UtcTimeStamp KeptStore::getCreationTime() const throw(FIX::IOException) {
    const std::string date = store_.date();
    return FIX::UtcTimeStamp(0, 0, 0, std::stoi(date.substr(6, 2)), std::stoi(date.substr(4, 2)),
                             std::stoi(date.substr(0, 4)));
}

void KeptStore::reset() throw(FIX::IOException) {
    store_.begin_day();
    sender_ = store_.next_sent();
    target_ = store_.next_received();
}

} // namespace desk
