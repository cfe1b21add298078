// When certificates end, and lists of those that were taken back.
#ifndef GATEWAY_HEALTH_CERTIFICATE_END_H
#define GATEWAY_HEALTH_CERTIFICATE_END_H

#include "health/metrics.h"
#include "session/engine_settings.h"

#include <chrono>
#include <filesystem>
#include <optional>
#include <string>
#include <vector>

namespace gateway {

// So long before its end an operator is told of it.
constexpr auto notice_of_certificate = std::chrono::days(14);
constexpr auto notice_of_list = std::chrono::days(3);

// The first end of the certificates of a file in PEM; nothing where none can be read there.
std::optional<std::chrono::sys_seconds> end_of_certificates(const std::filesystem::path &file);
// That of the lists of certificates that were taken back.
std::optional<std::chrono::sys_seconds> end_of_lists(const std::filesystem::path &file);

// Tells when the certificates end that the gateway shows and those that it asks for, and the list
// of those that were taken back.
void count_certificates(const EngineSettings &settings, Metrics &metrics);
// What of them has ended by this moment, or ends soon: a sentence each.
std::vector<std::string> ends_soon(const EngineSettings &settings, std::chrono::sys_seconds now);
// Of which authority [tls] revoked has no list, though it has some: a sentence each.
std::vector<std::string> without_list(const EngineSettings &settings);

} // namespace gateway

#endif
