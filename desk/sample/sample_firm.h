// A firm that trades by itself: what the sample dealers and the sample investors share.
#ifndef SAMPLE_SAMPLE_FIRM_H
#define SAMPLE_SAMPLE_FIRM_H

#include "fix_session.h"
#include "identifiers.h"
#include "market.h"
#include "message.h"
#include "record.h"

#include <chrono>
#include <functional>
#include <list>
#include <memory>
#include <random>
#include <string>
#include <vector>

#include <boost/asio/io_context.hpp>
#include <boost/asio/steady_timer.hpp>

namespace sample {

struct Settings {
    desk::FixSettings fix;
    desk::Market market;
    std::string trader;
    std::string data; // the folder of its journal
};

class SampleFirm : private desk::FixListener {
  public:
    SampleFirm(boost::asio::io_context &io, const Settings &settings);
    ~SampleFirm() override = default;
    void start();
    void stop();

  protected:
    // Each message of the venue, on the thread of io; not those of an earlier process.
    virtual void take(const desk::Message &message) = 0;
    // Once, when the session is up for the first time.
    virtual void begin() {}

    void send(const char *type, const std::vector<desk::FixField> &fields,
              const std::vector<std::string> &dealers = {});
    void after(std::chrono::milliseconds time, std::function<void()> act);
    std::string name(char kind) { return identifiers_.next(kind); }
    // 0 to sides - 1, each as often.
    int roll(int sides);
    // What a bond is worth at a moment, in 256ths: the same to every sample firm.
    int worth(const desk::Bond &bond) const;
    const Settings &settings() const { return settings_; }

  private:
    void received(const std::string &raw) override { record_.received(raw); }
    bool may_leave(const std::string &) override { return true; }
    bool may_send_again(const std::string &) override { return false; }
    void logged_on(bool is_on) override;
    void event(const std::string &) override {}
    void take_all();

    boost::asio::io_context &io_;
    const Settings settings_;
    std::mt19937 random_;
    desk::Identifiers identifiers_;
    desk::Record record_;
    std::unique_ptr<desk::FixSession> fix_;
    std::list<boost::asio::steady_timer> timers_;
    bool has_begun_ = false;
};

} // namespace sample

#endif
