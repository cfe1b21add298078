// A dealer that quotes by itself: with a spread, a delay, sometimes a validity, a replacement, a
// withdrawal, a decline, or silence.
#ifndef SAMPLE_SAMPLE_DEALER_H
#define SAMPLE_SAMPLE_DEALER_H

#include "sample_firm.h"

#include <map>
#include <string>

namespace sample {

class SampleDealer final : public SampleFirm {
  public:
    using SampleFirm::SampleFirm;

  private:
    struct Shown {
        std::string bond;
        bool is_bought = false; // by the investor
        std::string quote;      // the last one that was sent
    };
    void take(const desk::Message &message) override;
    void consider(const std::string &request);
    void quote(const std::string &request, std::chrono::seconds valid_for);
    void withdraw(const std::string &request);

    std::map<std::string, Shown> open_; // by 131
    int considered_ = 0;                // requests
};

} // namespace sample

#endif
