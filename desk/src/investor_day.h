// The day of an investor: its requests, the quotes that it is shown, its hits and passes.
#ifndef DESK_INVESTOR_DAY_H
#define DESK_INVESTOR_DAY_H

#include "day.h"
#include "lists.h"

#include <map>
#include <optional>
#include <string>
#include <vector>

#include <nlohmann/json_fwd.hpp>

namespace desk {

struct ShownQuote {
    enum class State { live, gone, hit };
    std::string id; // the venue's, 117
    std::string dealer;
    Price price;
    std::optional<Moment> valid_until; // 62
    Moment at;
    State state = State::live;

    bool is_over(Moment moment) const { return valid_until && *valid_until <= moment; }
};

struct AskedDealer {
    enum class Answer { none, quoted, declined, took_back };
    std::string name;
    Answer answer = Answer::none;
};

struct Award {
    std::string quote;
    std::string dealer;
    Price price;
    std::string trader; // who hit
};

// The best of the other dealers' quotes that stood when a request was awarded.
struct Cover {
    std::string dealer;
    Price price;
};

struct InvestorRequest : Request {
    enum class State { sent, open, refused, undelivered, done, passed, expired };
    State state = State::sent;
    std::string trader; // who asked
    std::vector<AskedDealer> dealers;
    std::vector<ShownQuote> quotes;
    std::optional<Award> award;
    std::optional<Cover> cover;

    bool is_open() const { return state == State::sent || state == State::open; }
    const ShownQuote *quote(const std::string &id) const;
};

class InvestorDay final : public Day {
  public:
    nlohmann::json view(const std::string &request) const override;
    const Usage &usage() const override { return usage_; }

    // Null where there is none.
    const InvestorRequest *request(const std::string &id) const;

    Lists &lists() { return lists_; }
    const Lists &lists() const { return lists_; }

  private:
    void listed(const nlohmann::json &note, Moment at) override { lists_.apply(note, at); }
    void sent(const Message &message, const Sent &own, Moment at) override;
    void received(const Message &message, Moment at) override;
    Request *named(const std::string &request) override { return find(request); }
    void failed(const Sent &own, const std::string &why, bool is_refusal, Moment at) override;

    void asked(const Message &message, const Sent &own, Moment at);
    void responded(const Message &message, const Sent &own, Moment at);
    void answered(const Message &message, Moment at);
    void shown(InvestorRequest &request, const Message &message, Moment at);
    void told(InvestorRequest &request, const Message &message, Moment at);
    void taken_back(InvestorRequest &request, const std::string &quote, Moment at);
    void awarded(InvestorRequest &request, const Message &message, const Sent &hit, Moment at);
    void end(InvestorRequest &request, InvestorRequest::State state, Moment at);
    InvestorRequest *find(const std::string &id);
    // An empty text where no such quote was shown.
    std::string request_of(const std::string &quote) const;

    std::map<std::string, InvestorRequest> requests_;
    std::map<std::string, std::string> request_of_quote_;
    std::map<std::string, Sent> responses_; // by QuoteRespID (693)
    Lists lists_;
    Usage usage_;
};

} // namespace desk

#endif
