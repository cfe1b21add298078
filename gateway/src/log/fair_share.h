// How much of the log's next batch, and of the entries that the venue has not answered, one firm
// may have.
#ifndef GATEWAY_LOG_FAIR_SHARE_H
#define GATEWAY_LOG_FAIR_SHARE_H

#include <cstddef>
#include <cstdint>
#include <deque>
#include <limits>
#include <map>
#include <string>
#include <utility>

namespace gateway {

struct ShareLimits {
    static constexpr std::size_t none = std::numeric_limits<std::size_t>::max();

    std::size_t batch = none;      // entries of a firm in one batch
    std::size_t unanswered = none; // entries of a firm that are committed and not answered
    std::size_t all_unanswered = none;
};

// So a firm that sends without end is waited for by nobody but itself, and the venue has never more
// to answer than it does in a moment. One thread at a time.
class FairShare {
  public:
    explicit FairShare(const ShareLimits &limits) : limits_(limits) {}

    // Whether the firm may have one more entry in the next batch.
    bool has_room(const std::string &firm) const;
    // It has one more.
    void put(const std::string &firm);
    // The batch is committed, and nothing is in the next one.
    void batch_taken() {
        in_batch_.clear();
        all_in_batch_ = 0;
    }
    // The entry at this place is that firm's. In the order of places.
    void committed(const std::string &firm, std::uint32_t place);
    // The venue has answered all up to this place. What was answered before, by a process that has
    // ended, stays so.
    void answered(std::uint32_t place);

  private:
    static std::size_t count_in(const std::map<std::string, std::size_t> &counts,
                                const std::string &firm);

    const ShareLimits limits_;
    std::map<std::string, std::size_t> in_batch_;
    std::size_t all_in_batch_ = 0;                                 // of all firms together
    std::deque<std::pair<std::uint32_t, std::string>> unanswered_; // places and firms
    std::map<std::string, std::size_t> unanswered_of_;
};

} // namespace gateway

#endif
