// Messages that firm F says at this moment.
#ifndef GATEWAY_TESTS_SAID_NOW_H
#define GATEWAY_TESTS_SAID_NOW_H

#include "check.h"
#include "common/frame.h"

#include <chrono>
#include <string>

namespace gateway::tests {

// YYYYMMDD-HH:MM:SS, in UTC.
inline std::string moment_now() {
    const auto now = std::chrono::floor<std::chrono::seconds>(std::chrono::system_clock::now());
    const auto day = std::chrono::floor<std::chrono::days>(now);
    const std::chrono::year_month_day date(day);
    const std::chrono::hh_mm_ss time(now - day);
    return fmt::format("{:04}{:02}{:02}-{:02}:{:02}:{:02}", static_cast<int>(date.year()),
                       static_cast<unsigned>(date.month()), static_cast<unsigned>(date.day()),
                       time.hours().count(), time.minutes().count(), time.seconds().count());
}

inline std::string said_now(const std::string &type, int number, const std::string &rest) {
    return framed(with_soh(
        fmt::format("35={}|49=F|56=VENUE|34={}|52={}|{}", type, number, moment_now(), rest)));
}

} // namespace gateway::tests

#endif
