#include "config/certified_firms.h"

#include "config/config_section.h"

#include <fmt/format.h>

namespace gateway {

namespace {

std::set<std::string> dealers_in(const std::string &configuration) {
    std::set<std::string> names;
    const toml::table venue = parse("entry 0", configuration);
    if (const toml::array *rows = venue["dealer"].as_array()) {
        for (const toml::node &row : *rows) {
            names.insert((*row.as_table())["name"].value_or(std::string()));
        }
    }
    return names;
}

} // namespace

Digest formats_of_build() {
    return digest_of(DIGEST_OF_FORMATS).value();
}

CertifiedFirms::CertifiedFirms(const Config &config)
    : rules_(config.certification), date_(config.firms.date),
      dealers_(rules_.key ? dealers_in(config.configuration) : std::set<std::string>()) {}

std::string CertifiedFirms::fault(const std::string &firm, const SignedReport &report) const {
    const bool is_dealer = dealers_.contains(firm);
    if (!rules_.key) {
        return "[fix] report_key names no key by which a report could be checked";
    }
    if (!rules_.key->has_signed(report.signature, report.what_is_signed())) {
        return "its report is not signed with the key of [fix] report_key";
    }
    if (report.firm != firm) {
        return fmt::format("its report is of the firm {}", report.firm);
    }
    if (report.role != (is_dealer ? "dealer" : "investor")) {
        return fmt::format("its report is of {} {}", is_dealer ? "an" : "a", report.role);
    }
    if (!report.has_passed) {
        return "its report says that not every case has passed";
    }
    if (report.formats != formats_of_build()) {
        return "its report is of other formats than this gateway's";
    }
    return report.until < date_ ? fmt::format("its report held to {}", report.until) : "";
}

std::string CertifiedFirms::keeps_out(const std::string &firm, const Credentials &own) const {
    if (!rules_.is_needed) {
        return "";
    }
    return own.report ? fault(firm, *own.report) : "no report of it was admitted";
}

} // namespace gateway
