#include "base/event_form.h"

#include "common/shown.h"

#include <spdlog/pattern_formatter.h>

namespace gateway {

namespace {

// The words of an event.
class OneLine final : public spdlog::custom_flag_formatter {
  public:
    void format(const spdlog::details::log_msg &event, const std::tm &,
                spdlog::memory_buf_t &line) override {
        const std::string words = shown({event.payload.data(), event.payload.size()});
        line.append(words.data(), words.data() + words.size());
    }
    std::unique_ptr<custom_flag_formatter> clone() const override {
        return std::make_unique<OneLine>();
    }
};

} // namespace

std::unique_ptr<spdlog::formatter> event_form() {
    auto form = std::make_unique<spdlog::pattern_formatter>(spdlog::pattern_time_type::utc);
    form->add_flag<OneLine>('*').set_pattern("%Y-%m-%dT%H:%M:%S.%eZ %l %*");
    return form;
}

} // namespace gateway
