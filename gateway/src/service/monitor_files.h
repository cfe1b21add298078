// The files of gateway/page, as texts in the program.
#ifndef GATEWAY_SERVICE_MONITOR_FILES_H
#define GATEWAY_SERVICE_MONITOR_FILES_H

#include "common/web/static_files.h"

namespace gateway {

void add_monitor_files(web::StaticFiles &files);

} // namespace gateway

#endif
