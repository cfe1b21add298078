// Writes events to standard error, even while their reader takes none.
#ifndef GATEWAY_BASE_PATIENT_STDERR_H
#define GATEWAY_BASE_PATIENT_STDERR_H

#include <cstddef>
#include <mutex>
#include <string_view>

#include <spdlog/sinks/base_sink.h>

namespace gateway {

// A journal on a disk that stalls takes nothing for a while. No session waits for that: after a
// second without room lines are left out until there is some, and then their number is told.
class PatientStderr final : public spdlog::sinks::base_sink<std::mutex> {
  protected:
    void sink_it_(const spdlog::details::log_msg &event) override;
    void flush_() override {}

  private:
    bool put(std::string_view text);

    std::size_t left_out_ = 0;
    bool is_cut_ = false; // the last line that was begun has no end
};

} // namespace gateway

#endif
