// The result of a report of mireseason-certify, as one line that the venue's host has signed.
#ifndef GATEWAY_CONFIG_SIGNED_REPORT_H
#define GATEWAY_CONFIG_SIGNED_REPORT_H

#include "base/digest.h"
#include "log/records.h"

#include <optional>
#include <string>
#include <string_view>

namespace gateway {

// `mireseason-report 1 FIRM ROLE passed|failed UNTIL FORMATS REPORT SIGNATURE`: what is signed is
// all in front of the last space.
struct SignedReport {
    std::string line;
    std::string firm;
    std::string role;        // dealer or investor
    bool has_passed = false; // every case of the role, none left out
    std::string until;       // YYYYMMDD, its last day
    Digest formats{};        // of what firms read and write
    Digest report{};         // of the report's file
    Signature signature{};

    std::string_view what_is_signed() const;
};

// Nothing where the line is of another form.
std::optional<SignedReport> signed_report_of(std::string_view line);

} // namespace gateway

#endif
