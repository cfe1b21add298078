#include "day.h"

#include "dealer_day.h"
#include "investor_day.h"
#include "words.h"

#include <charconv>
#include <utility>

#include <nlohmann/json.hpp>

namespace desk {

namespace {

std::int64_t number_of(const std::string &text) {
    std::int64_t number = 0;
    std::from_chars(text.data(), text.data() + text.size(), number);
    return number;
}

} // namespace

std::unique_ptr<Day> Day::of(Role role) {
    if (role == Role::investor) {
        return std::make_unique<InvestorDay>();
    }
    return std::make_unique<DealerDay>();
}

void Day::apply(const Entry &entry) {
    switch (entry.kind) {
    case Entry::Kind::sent:
        return apply_sent(entry);
    case Entry::Kind::received:
        return apply_received(entry);
    case Entry::Kind::undelivered:
        // The venue may ask for it more than once; by then another of its kind may be on its way.
        if (sent_.contains(number_of(entry.bytes))) {
            apply_failure(entry.bytes,
                          "never delivered: the connection or the disk stalled, and it is too old",
                          false, entry.moment);
            sent_.erase(number_of(entry.bytes));
        }
        return;
    case Entry::Kind::note:
        return apply_note(entry);
    case Entry::Kind::session:
        return;
    }
}

std::set<std::string> Day::take_changed() {
    return std::exchange(changed_, {});
}

void Day::notice(Moment at, const std::string &text, bool is_refusal) {
    notice_ = Told{at, text, is_refusal, {}};
}

void Day::apply_sent(const Entry &entry) {
    const Message message(entry.bytes);
    const Sent own{message.type(), message.get(tag::quote_req_id), message.get(tag::quote_id),
                   message.get(tag::sender_sub_id)};
    sent_[message.number(tag::msg_seq_num)] = own;
    sent(message, own, entry.moment);
}

void Day::apply_note(const Entry &entry) {
    const nlohmann::json note = nlohmann::json::parse(entry.bytes, nullptr, false);
    try {
        note.contains("list") ? listed(note, entry.moment) : claimed(note, entry.moment);
    } catch (const nlohmann::json::exception &) {
        return; // of a later version of the desk
    }
}

void Day::claimed(const nlohmann::json &note, Moment at) {
    const std::string what = note.at("do"), trader = note.at("trader");
    Request *request = named(note.at("request"));
    if (request == nullptr) {
        return;
    }
    changed(request->id);
    if (what == "claim") {
        request->claim = Claim{note.at("login"), trader, at};
        request->note(at, "Claimed", trader);
    } else if (what == "release") {
        request->claim.reset();
        request->note(at, "Released", trader);
    } else if (what == "hand over") {
        request->claim = Claim{note.at("to"), note.at("to trader"), at};
        request->note(at, "Handed over to " + request->claim->trader, trader);
    }
}

void Day::count(const Message &message) {
    const std::int64_t number = message.number(tag::venue_number);
    if (number == 0) {
        return;
    }
    if (number != venue_number_ + 1) {
        set_alarm("Messages of the venue are missing (ApplSeqNum " +
                  std::to_string(venue_number_ + 1) + " to " + std::to_string(number - 1) +
                  "): what is shown may be incomplete. Call the venue.");
    }
    venue_number_ = number;
}

void Day::apply_received(const Entry &entry) {
    const Message message(entry.bytes);
    const std::int64_t number = message.number(tag::msg_seq_num);
    if (number <= received_) {
        return; // it came before
    }
    received_ = number;
    count(message);
    const Moment left = message.moment(tag::sending_time).value_or(entry.moment);
    if (message.get(tag::poss_dup) != "Y") {
        clock_offset_ = left - entry.moment;
    }
    const Moment at = message.moment(tag::transact_time).value_or(left);
    if (message.type() == "3") {
        apply_failure(message.get(tag::ref_seq_num), "refused: " + reject_words(message), true, at);
    } else if (message.type() == "j") {
        apply_failure(message.get(tag::ref_seq_num), "refused: " + not_taken_words(message), true,
                      at);
    } else {
        received(message, at);
    }
}

void Day::apply_failure(const std::string &number, const std::string &why, bool is_refusal,
                        Moment at) {
    const auto found = sent_.find(number_of(number));
    if (found == sent_.end()) {
        return notice(at, "A message of this desk was " + why, is_refusal);
    }
    failed(found->second, why, is_refusal, at);
}

} // namespace desk
