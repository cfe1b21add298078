// Answers of the operator's socket that are streams of bytes, not texts.
#ifndef GATEWAY_OPERATOR_ADMIN_STREAM_H
#define GATEWAY_OPERATOR_ADMIN_STREAM_H

#include "operator/admin_command.h"

#include <functional>
#include <string>
#include <string_view>

#include <sys/types.h>

namespace gateway {

// Takes bytes for whoever asked. Throws std::runtime_error where they are not taken in time.
using PutBytes = std::function<void(std::string_view bytes)>;

// Answers a line whose command is `backup`: a copy of the open day's log, as one stream, for root
// and the gateway's own user, since it has what every firm said. Nothing is held meanwhile but what
// SQLite needs of the log: no end of a day waits for it. False where the line has another command.
bool stream_backup(AdminScene &scene, uid_t user, std::string_view line, const PutBytes &put);

} // namespace gateway

#endif
