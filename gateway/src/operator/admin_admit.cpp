// The operator's command `admit`.
#include "operator/admin_command.h"

#include "config/certified_firms.h"

#include <fmt/format.h>

namespace gateway {

namespace {

// The program has put the line that signs the report in the place of its file's name.
SignedReport report_in(const std::string &word) {
    const auto report = signed_report_of(word);
    if (!report) {
        throw AdminFault("this is no line that signs a report: mireseason-certify --key writes it "
                         "beside the report");
    }
    return *report;
}

} // namespace

AdminAnswer run_admit(AdminCall &call) {
    check_words(call, 2, 2);
    const std::string &firm = call.words[0];
    const SignedReport report = report_in(call.words[1]);
    OpenDay day(call.scene);
    const std::vector<Leader *> leaders = day.leaders_of(firm);
    for (Leader *leader : leaders) {
        const std::string fault = CertifiedFirms(leader->day().config).fault(firm, report);
        if (!fault.empty()) {
            throw AdminFault(fmt::format("{} is not admitted: {}", firm, fault));
        }
    }
    const Act act =
        call.act(fmt::format("admit {} {} {}", firm, report.until, text_of(report.report)));
    for (Leader *leader : leaders) {
        OpenDay::commit(*leader, act);
    }
    return {fmt::format("{} is admitted for this day", firm), {}};
}

} // namespace gateway
