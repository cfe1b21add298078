// The day of a dealer: the requests that it is shown, its quotes, and how each request ended.
#ifndef DESK_DEALER_DAY_H
#define DESK_DEALER_DAY_H

#include "day.h"

#include <map>
#include <optional>
#include <set>
#include <string>
#include <vector>

#include <nlohmann/json_fwd.hpp>

namespace desk {

struct OwnQuote {
    enum class State { sent, live, replaced, withdrawn, refused, undelivered, hit, ended };
    std::string id; // the desk's, 117
    std::string trader;
    Price price;
    std::optional<Moment> valid_until; // 62
    Moment at;
    State state = State::sent;
};

struct DealerRequest : Request {
    enum class State { open, won, cover, away, passed, expired };
    State state = State::open;
    std::string investor;
    bool is_declined = false;
    std::vector<OwnQuote> quotes;
    std::optional<Price> result; // of the quote that was live at the end

    bool is_open() const { return state == State::open; }
    // Null where there is none. A quote whose validity is over is live all the same.
    const OwnQuote *live() const;
};

class DealerDay final : public Day {
  public:
    nlohmann::json view(const std::string &request) const override;
    const Usage &usage() const override { return usage_; }

    // Null where there is none.
    const DealerRequest *request(const std::string &id) const;
    // The sum of a trader's own live quotes and of those that are sent and not answered.
    Quantity exposure_of(const std::string &trader) const;

  private:
    void sent(const Message &message, const Sent &own, Moment at) override;
    void received(const Message &message, Moment at) override;
    Request *named(const std::string &request) override { return find(request, ""); }
    void failed(const Sent &own, const std::string &why, bool is_refusal, Moment at) override;

    void shown(const Message &message, Moment at);
    void quoted(DealerRequest &request, const Message &message, const Sent &own, Moment at);
    void cancelled_all(const Sent &own, Moment at);
    void tell_cancelled(Moment at);
    void nothing_cancelled(const Message &message, Moment at);
    void cancel_all_failed(const std::string &why, bool is_refusal, Moment at);
    // No withdrawal is waited for any more.
    void forget_withdrawals();
    void answered(DealerRequest &request, const Message &message, Moment at);
    void closed(DealerRequest &request, const Message &message, Moment at);
    void quote_answered(DealerRequest &request, const Message &message, Moment at);
    void cancel_answered(DealerRequest &request, const Message &message, Moment at);
    void decline_answered(DealerRequest &request, const Message &message, Moment at);
    void set(DealerRequest &request, OwnQuote &quote, OwnQuote::State state);
    DealerRequest *find(const std::string &request, const std::string &quote);

    std::map<std::string, DealerRequest> requests_;
    std::map<std::string, std::string> request_of_quote_;
    std::map<std::string, Quantity> exposure_;
    std::set<std::string> cancelling_; // the quotes that the last cancel of all has to end yet
    int cancelled_ = 0;                // and how many it has withdrawn
    Usage usage_;
};

} // namespace desk

#endif
