// Keeps what the firms' sessions may have to send again, in files of the gateway's own.
#ifndef GATEWAY_LOG_SPOOL_H
#define GATEWAY_LOG_SPOOL_H

#include "base/digest.h"
#include "base/record_file.h"
#include "session/session_event.h"

#include <cstddef>
#include <cstdint>
#include <filesystem>
#include <functional>
#include <map>
#include <mutex>
#include <optional>
#include <string>
#include <string_view>
#include <vector>

namespace gateway {

// A message that the venue gave a firm.
struct GivenMessage {
    std::uint32_t number = 0;          // the venue's
    std::uint32_t place = 0;           // of the entry that it answers,
    std::uint32_t moment = 0;          // and its moment, in milliseconds of the day
    std::string type{};                // 35
    std::string wire{};                // what a session keeps of it
    std::string frame{};               // the venue's; empty where it was not put
    std::optional<std::string> told{}; // the field that tells what is noted beside it, likewise
};

// The venue's messages as sessions keep them, and what each session keeps under its numbers. A
// resend is read here, and not from the database: what somebody writes into that reaches no firm.
// Nothing in memory grows with the day. One for each venue's day; any thread may use it. Each call
// throws std::system_error where a file can't be read or written.
class Spool {
  public:
    Spool(const std::filesystem::path &folder, const std::vector<std::string> &firms);

    // In order.
    std::vector<std::string> firms() const;
    bool has(const std::string &firm) const { return firms_.contains(firm); }

    // The venue gave a firm a message. One that it gives again, since it is fed again, has to be
    // the same, and any other the next one: throws std::runtime_error where it is not. Returns the
    // running hash of the firm's messages with this one (docs/RECOVERY.md); nothing where it is
    // given again.
    std::optional<Digest> give(const std::string &firm, const GivenMessage &message);
    // How many it gave the firm.
    std::uint32_t last_given(const std::string &firm) const;
    // The running hash of those up to this number; zeros for 0.
    Digest hash_of_given(const std::string &firm, std::uint32_t number) const;
    // The message of this number. Throws std::runtime_error where there is none.
    GivenMessage given(const std::string &firm, std::uint32_t number) const;

    // A session keeps a message of its own.
    void keep(const std::string &firm, const KeptMessage &message);
    // Under its number the venue's of the number `given`, first sent at the moment of its entry.
    void keep_given(const std::string &firm, std::uint32_t number, std::uint32_t given);
    // The same of those from `first` to `last`, in order: `number_of` is shown the running hash of
    // each, and returns its number, or 0 where it is not kept.
    void keep_all_given(const std::string &firm, std::uint32_t first, std::uint32_t last,
                        const std::function<std::uint32_t(const Digest &)> &number_of);
    // Its own Rejects (35=3, 35=j) from a number on are kept no longer.
    void drop_rejects(const std::string &firm, std::uint32_t from);
    // An operator has reset the session: what it keeps of the venue's behind a number gets the
    // numbers from 2 on, as copies, and nothing else is kept any longer.
    void reset(const std::string &firm, std::uint32_t behind);

    // What a session keeps from a number on, `limit` at most, in order.
    std::vector<KeptMessage> kept(const std::string &firm, std::uint32_t from,
                                  std::size_t limit) const;
    // How much of the venue's it keeps behind a number.
    std::uint64_t count_given(const std::string &firm, std::uint32_t behind) const;

  private:
    // Where the bytes of a message stand, and its 35.
    struct Body {
        std::uint64_t begin = 0;
        std::uint32_t length = 0; // 0: there is none
        char type[4] = {};
    };
    // The same of one that the venue gave. Its own frame, and what is told beside it, stand behind
    // what is kept of it.
    struct Given {
        Body body;
        std::uint32_t frame = 0; // bytes of the one,
        std::uint32_t told = 0;  // and of the other
        std::uint32_t place = 0;
        std::uint32_t moment = 0;
        Digest hash{}; // the running one
    };
    // What a session keeps, as KeptMessage has it.
    struct Kept {
        Body body; // none where it is kept no longer
        std::uint32_t number = 0;
        std::uint32_t first = 0;
        std::uint32_t given = 0; // the venue's number; 0 of what is the session's own
        std::uint32_t is_copy = 0;
    };
    // One thread at a time.
    struct Firm {
        explicit Firm(const std::filesystem::path &folder) : given(folder), kept(folder) {}

        // Shows what is kept from a number on, in order and each with its place in the file, until
        // `see` says false. What is not kept takes no time: most of a firm's numbers may be of
        // Heartbeats.
        template <typename See> void each(std::uint32_t from, See see) const;
        // The place of the first record of this number or a higher one.
        std::uint32_t place_of(std::uint32_t number) const;
        // Behind all that is kept.
        void put(const Kept &record);

        mutable std::mutex mutex;
        RecordFile<Given> given; // by the venue's numbers
        std::uint32_t last_given = 0;
        Digest last_hash{};             // of that one
        RecordFile<Kept> kept;          // in the order of the session's numbers
        std::uint32_t kept_end = 0;     // places in that file
        std::uint32_t last_kept = 0;    // the last number there
        std::uint32_t first_reject = 0; // no Reject is kept before it; 0: none is
    };

    const Firm &firm_of(const std::string &name) const;
    Firm &firm_of(const std::string &name);
    Body append(std::string_view type, std::string_view bytes, std::string_view frame = {},
                std::string_view told = {});
    std::string bytes_of(const Body &body) const { return bodies_.at(body.begin, body.length); }
    bool is_same(const Given &is, const GivenMessage &message) const;
    // Takes the firm's lock.
    static std::vector<Kept> records_of(const Firm &firm, std::uint32_t from, std::size_t limit);
    // The firm's lock is held.
    static void keep_here(const std::string &name, Firm &firm, const Given &found,
                          std::uint32_t number, std::uint32_t given);

    const std::filesystem::path folder_;
    TextFile bodies_;
    std::map<std::string, Firm> firms_;
};

} // namespace gateway

#endif
