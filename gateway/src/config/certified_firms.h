// Which firms may log on if each needs an admitted report of mireseason-certify.
#ifndef GATEWAY_CONFIG_CERTIFIED_FIRMS_H
#define GATEWAY_CONFIG_CERTIFIED_FIRMS_H

#include "config/config.h"
#include "config/signed_report.h"

#include <set>
#include <string>

namespace gateway {

// Of one venue's configuration and its day.
class CertifiedFirms {
  public:
    explicit CertifiedFirms(const Config &config);

    // What speaks against this report as one that admits the firm; empty where nothing does.
    std::string fault(const std::string &firm, const SignedReport &report) const;
    // Why the firm may not log on by what its credentials have; empty where it may, and where no
    // firm needs a report.
    std::string keeps_out(const std::string &firm, const Credentials &own) const;

  private:
    Certification rules_;
    std::string date_;
    std::set<std::string> dealers_;
};

// The SHA-256 of the dictionaries that this gateway is built with: of fix/FIXT11.xml and
// fix/MIRESEASON.xml, one behind the other.
Digest formats_of_build();

} // namespace gateway

#endif
