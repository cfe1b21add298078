// A FIX message as its fields.
#ifndef DESK_MESSAGE_H
#define DESK_MESSAGE_H

#include "moment.h"
#include "price.h"

#include <cstdint>
#include <optional>
#include <string>
#include <string_view>
#include <utility>
#include <vector>

namespace desk {

// The tags that the desk reads and writes.
namespace tag {
constexpr int msg_seq_num = 34, msg_type = 35, poss_dup = 43, ref_seq_num = 45, sender_sub_id = 50,
              sending_time = 52, text = 58, transact_time = 60, valid_until = 62,
              orig_sending_time = 122, expire_time = 126, quote_req_id = 131, symbol = 55,
              security_id = 48, id_source = 22, side = 54, order_qty = 38, quote_id = 117,
              bid = 132, offer = 133, status = 297, cancel_type = 298, reject_reason = 300,
              ref_tag = 371, session_reason = 373, party = 448, request_reason = 658,
              response_id = 693, response_type = 694, trade_id = 1003, venue_number = 1181;
} // namespace tag

class Message {
  public:
    // What is no field is passed over: the journal has only messages that QuickFIX took or made.
    explicit Message(std::string_view raw);

    // The first field of a tag; an empty text where there is none.
    const std::string &get(int tag) const;
    bool has(int tag) const { return !get(tag).empty(); }
    // Every field of a tag, in order.
    std::vector<std::string> all(int tag) const;
    // 0 where there is none, or no number.
    std::int64_t number(int tag) const;
    std::optional<Moment> moment(int tag) const { return moment_of(get(tag)); }
    std::optional<Price> price(int tag) const { return price_of(get(tag)); }

    const std::string &type() const { return get(tag::msg_type); }

  private:
    std::vector<std::pair<int, std::string>> fields_;
};

} // namespace desk

#endif
