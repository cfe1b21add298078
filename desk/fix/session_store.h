// What a FIX session has to find again when the process has ended and been started.
#ifndef DESK_FIX_SESSION_STORE_H
#define DESK_FIX_SESSION_STORE_H

#include <string>
#include <utility>
#include <vector>

namespace desk {

// Calls come from QuickFIX's threads and from the thread that sends, one at a time: QuickFIX's own
// lock lies over them.
class SessionStore {
  public:
    virtual ~SessionStore() = default;

    // The day of the session, YYYYMMDD in UTC.
    virtual std::string date() const = 0;
    // Begins an empty session, of today.
    virtual void begin_day() = 0;

    // The numbers (34) of the next message to the venue and of the next one of it. What of the
    // venue's was counted and not kept is asked for again.
    virtual int next_sent() const = 0;
    virtual int next_received() const = 0;

    // Keeps a message of the firm's, safe against a power cut, before it leaves. is_application: it
    // is no message of the session itself.
    virtual void keep(int number, bool is_application, const std::string &raw) = 0;
    // Those from first to last, in order, each with its number.
    virtual std::vector<std::pair<int, std::string>> kept(int first, int last) const = 0;
};

} // namespace desk

#endif
