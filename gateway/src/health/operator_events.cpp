#include "health/operator_events.h"

#include "base/printable.h"
#include "health/firm_metrics.h"

#include <algorithm>

namespace gateway {

namespace {

// Of the words of a line, so that the line has 200 bytes with the moment and the level before them.
constexpr std::size_t longest_words = 160;

// Of a certificate's name, which may be as long as its authority lets it.
constexpr std::size_t longest_name = 32;

// The words, and behind them somebody's text: cut where they would be too long.
std::string with_text(std::string words, std::string_view text) {
    if (text.empty()) {
        return words;
    }
    words += " text=\"";
    const std::size_t used = words.size() + 1;
    words += printable(text, longest_words - std::min(used, longest_words));
    return words + "\"";
}

// Of one of a kind, and of those before it that were left out.
std::string first_words(std::string_view event, const std::string &what, std::uint32_t left_out) {
    std::string words = fmt::format("{} what=\"{}\"", event, what);
    return left_out > 0 ? words + fmt::format(" left_out={}", left_out) : words;
}

// What is known of whoever was refused. Addresses and words are the gateway's own.
std::string about(const std::string &why, const std::string &firm, const ConnectionFacts &facts,
                  std::uint32_t left_out) {
    std::string words = first_words("refused", why, left_out);
    if (!firm.empty()) {
        words += fmt::format(" firm={}", firm);
    }
    words += fmt::format(" address={}", facts.address);
    if (!facts.certificate.empty()) {
        words += fmt::format(" certificate=\"{}\"", printable(facts.certificate, longest_name));
    }
    return words;
}

} // namespace

OperatorEvents::OperatorEvents(Metrics &metrics, std::shared_ptr<spdlog::logger> events)
    : metrics_(metrics), events_(std::move(events)) {}

void OperatorEvents::connection_opened(const std::string &) {
    metrics_.connected();
}

void OperatorEvents::connection_closed(const std::string &) {
    metrics_.disconnected();
}

void OperatorEvents::stranger(const ConnectionFacts &facts, const std::string &why,
                              const std::string &text) {
    metrics_.refused(why);
    if (const Limiter::Answer answer = lines_.ask(why); answer.told) {
        events_->warn("{}", with_text(about(why, "", facts, answer.left_out), text));
    }
    if (strangers_) {
        strangers_(facts, why);
    }
}

void OperatorEvents::logon_refused(const std::string &firm, const ConnectionFacts &facts,
                                   const std::string &why) {
    metrics_.refused(why);
    if (const Limiter::Answer answer = lines_.ask(why); answer.told) {
        events_->warn("{}", about(why, firm, facts, answer.left_out));
    }
}

void OperatorEvents::may_have_lost_store(const std::string &firm, const NumberClimb &climb) {
    constexpr std::string_view what = "may have lost its store";
    if (const Limiter::Answer answer = lines_.ask(std::string(what)); answer.told) {
        events_->warn("{} firm={}", text_of(climb), firm);
    }
}

void OperatorEvents::refused(const std::string &what, const std::string &text) {
    metrics_.refused(what);
    if (const Limiter::Answer answer = lines_.ask(what); answer.told) {
        events_->warn("{}", with_text(first_words("refused", what, answer.left_out), text));
    }
}

void OperatorEvents::dropped(const std::string &what, const std::string &text) {
    metrics_.dropped(what);
    if (const Limiter::Answer answer = lines_.ask("dropped " + what); answer.told) {
        events_->warn("{}", with_text(first_words("dropped", what, answer.left_out), text));
    }
}

void OperatorEvents::delivered(const Delivery &delivery) {
    metrics_.handed_over(std::chrono::steady_clock::now() - delivery.given);
}

void OperatorEvents::tell_rest() {
    tell(lines_.rest());
}

void OperatorEvents::tell_last_rest() {
    tell(lines_.last_rest());
}

void OperatorEvents::tell(const std::vector<Limiter::Rest> &rest) {
    for (const Limiter::Rest &kind : rest) {
        events_->warn("left out what=\"{}\" lines={}", kind.kind, kind.left_out);
    }
}

} // namespace gateway
