// The files of desk/page, as texts in the program.
#ifndef DESK_BUILT_IN_PAGES_H
#define DESK_BUILT_IN_PAGES_H

#include "common/web/static_files.h"

namespace desk {

web::StaticFiles built_in_pages();

} // namespace desk

#endif
