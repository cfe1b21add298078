// Keeps the last right certificates, for a gateway whose files are at fault by now.
#ifndef GATEWAY_SESSION_LAST_RIGHT_TLS_H
#define GATEWAY_SESSION_LAST_RIGHT_TLS_H

#include "session/channel.h"
#include "session/engine_settings.h"

#include <memory>

namespace gateway {

// As tls_of(), which has the files as they are now. What it finds right is kept by this process.
std::shared_ptr<const TlsServer> tls_of_now(const EngineSettings &settings);

// The same; where a file is at fault, what these files were when they were last right. So the next
// day opens at a gateway that runs. Throws std::runtime_error where they never were.
std::shared_ptr<const TlsServer> last_right_tls_of(const EngineSettings &settings);

} // namespace gateway

#endif
