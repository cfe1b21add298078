// Writes events for whoever runs the desk: lines on standard error, `MOMENT FIRM WORDS`.
#ifndef DESK_EVENTS_H
#define DESK_EVENTS_H

#include <mutex>
#include <string>
#include <string_view>

namespace desk {

// Any thread may tell. A control character is written as a question mark; a line has a limit.
class Events {
  public:
    explicit Events(std::string firm) : firm_(std::move(firm)) {}
    void tell(std::string_view text);

  private:
    const std::string firm_;
    std::mutex mutex_;
};

} // namespace desk

#endif
