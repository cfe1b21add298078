// An investor that asks now and then, and hits the best quote or passes.
#ifndef SAMPLE_SAMPLE_INVESTOR_H
#define SAMPLE_SAMPLE_INVESTOR_H

#include "sample_firm.h"

#include <map>
#include <string>

namespace sample {

class SampleInvestor final : public SampleFirm {
  public:
    using SampleFirm::SampleFirm;

  private:
    struct Asked {
        bool buys = false;
        std::map<std::string, desk::Price> quotes; // that stand, by 117
    };
    void begin() override;
    void take(const desk::Message &message) override;
    void ask();
    void decide(const std::string &request);

    std::map<std::string, Asked> open_; // by 131
};

} // namespace sample

#endif
