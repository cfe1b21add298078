#include "sample_firm.h"

#include <cmath>
#include <numbers>

#include <boost/asio/post.hpp>

namespace sample {

using desk::Message;

SampleFirm::SampleFirm(boost::asio::io_context &io, const Settings &settings)
    : io_(io), settings_(settings), random_(std::random_device()()), identifiers_(desk::now()),
      record_(settings.data, [this] { boost::asio::post(io_, [this] { take_all(); }); }) {
    record_.take(); // of an earlier process: its requests and quotes are left alone
    desk::FixListener &listener = *this;
    fix_ = std::make_unique<desk::FixSession>(settings.fix, record_, listener);
}

void SampleFirm::start() {
    fix_->start();
}

void SampleFirm::stop() {
    record_.let_through();
    fix_->stop();
}

void SampleFirm::take_all() {
    for (const desk::Happening &happening : record_.take()) {
        if (happening && happening->kind == desk::Entry::Kind::received) {
            take(Message(happening->bytes));
        }
    }
}

void SampleFirm::logged_on(bool is_on) {
    boost::asio::post(io_, [this, is_on] {
        if (is_on && !has_begun_) {
            has_begun_ = true;
            begin();
        }
    });
}

void SampleFirm::send(const char *type, const std::vector<desk::FixField> &fields,
                      const std::vector<std::string> &dealers) {
    if (fix_->is_on()) {
        fix_->send(type, settings_.trader, fields, dealers);
    }
}

void SampleFirm::after(std::chrono::milliseconds time, std::function<void()> act) {
    const auto own = timers_.emplace(timers_.end(), io_, time);
    own->async_wait([this, own, act = std::move(act)](const boost::system::error_code &fault) {
        if (!fault) {
            act();
            timers_.erase(own);
        }
    });
}

int SampleFirm::roll(int sides) {
    return std::uniform_int_distribution<int>(0, sides - 1)(random_);
}

// A price between 96 and 104 by its identifier, which goes up and down by half a point in ten
// minutes.
int SampleFirm::worth(const desk::Bond &bond) const {
    unsigned sum = 0;
    for (const char c : bond.id) {
        sum = sum * 31 + static_cast<unsigned char>(c);
    }
    const double minutes =
        std::chrono::duration<double, std::ratio<60>>(desk::now().time_since_epoch()).count();
    const double drift = 128 * std::sin(2 * std::numbers::pi * minutes / 10 + sum % 7);
    return 96 * 256 + static_cast<int>(sum % (8 * 256)) + static_cast<int>(drift);
}

} // namespace sample
