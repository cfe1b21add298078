// Declares what has a file of its own beside sqlite.cpp.
#ifndef GATEWAY_LOG_SQLITE_H
#define GATEWAY_LOG_SQLITE_H

#include "log/database.h"

#include <memory>
#include <string>

namespace gateway::sqlite {

std::unique_ptr<LogReader> read(const std::string &path);

} // namespace gateway::sqlite

#endif
