// Checks an engine's settings before the engine is made.
#ifndef GATEWAY_SESSION_CHECK_SETTINGS_H
#define GATEWAY_SESSION_CHECK_SETTINGS_H

#include "session/engine_settings.h"

namespace gateway {

// Throws std::runtime_error where an engine could not begin with them: by the address, or by a
// certificate or a key that can't be used.
void check_settings(const EngineSettings &settings);

} // namespace gateway

#endif
