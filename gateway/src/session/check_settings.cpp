#include "session/check_settings.h"

#include "session/last_right_tls.h"
#include "session/socket_address.h"

namespace gateway {

void check_settings(const EngineSettings &settings) {
    address_of(settings);
    tls_of_now(settings);
}

} // namespace gateway
