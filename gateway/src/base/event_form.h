// How an event is written for the operator.
#ifndef GATEWAY_BASE_EVENT_FORM_H
#define GATEWAY_BASE_EVENT_FORM_H

#include <memory>

#include <spdlog/formatter.h>

namespace gateway {

// `2025-03-14T09:00:00.000Z LEVEL WORDS`, in UTC and in one line, whatever the words have of a
// stranger's bytes: shown().
std::unique_ptr<spdlog::formatter> event_form();

} // namespace gateway

#endif
