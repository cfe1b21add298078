// The journal: what the desk received and sent, in one order, in one file a day. All that a trader
// sees follows from it. What is not here did not happen.
//
// A record is `CHECK KIND MOMENT LENGTH BYTES` and a newline; CHECK is the CRC-32 of everything
// after it up to the newline. The next start drops a last record that was cut off: what it told was
// not counted by the venue's session, or did not leave.
#ifndef DESK_JOURNAL_H
#define DESK_JOURNAL_H

#include "common/descriptor.h"
#include "moment.h"

#include <functional>
#include <string>

namespace desk {

struct Entry {
    enum class Kind : char {
        received = 'R',    // a message of the venue
        sent = 'S',        // a message of the firm's
        session = 'A',     // a message of the firm's session (Logon, Heartbeat, ..)
        undelivered = 'U', // in bytes, the number of a message that will never be delivered
        note = 'N',        // what traders tell each other, in JSON; the venue has no part in it
    };
    Kind kind = Kind::received;
    Moment moment; // of the desk's clock
    std::string bytes;
};

class Journal {
  public:
    // Opens or begins a day's file, hands its entries to `each`, and goes on behind the last one
    // before which all are whole: what stands there is put aside, into a file that ends with .cut.
    // Throws std::runtime_error where it can't.
    Journal(const std::string &path, const std::function<void(const Entry &)> &each);
    Journal(const Journal &) = delete;
    Journal &operator=(const Journal &) = delete;

    // Where it can't write it ends the process: nothing may happen that is not here.
    void write(const Entry &entry);
    // What was written is safe against a power cut from now on.
    void synchronise();

  private:
    const std::string path_;
    gateway::Descriptor file_;
};

// Hands over the entries of a day that is over, as far as they are whole, and changes nothing.
// Throws std::runtime_error where it can't read, or the file has more than a journal may.
void read_journal(const std::string &path, const std::function<void(const Entry &)> &each);

} // namespace desk

#endif
