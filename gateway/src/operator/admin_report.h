// The part of `admit` that mireseason-admin does itself: it reads a report's signature, and keeps
// it with the firm's credentials.
#ifndef GATEWAY_OPERATOR_ADMIN_REPORT_H
#define GATEWAY_OPERATOR_ADMIN_REPORT_H

#include <filesystem>
#include <string>

namespace gateway {

// The line that signs a report of mireseason-certify, from the file beside it (`.signature`).
// Throws std::runtime_error where there is none, and where it is another report's.
std::string line_that_signs(const std::filesystem::path &report);

// Has mireseason-credentials put the line into this file of credentials. Whether it did: else it
// has told why on standard error.
bool keep_report(const std::string &credentials, const std::string &firm, const std::string &line);

} // namespace gateway

#endif
