#include "service/systemd_notifier.h"

#include "base/pause.h"

#include <algorithm>
#include <utility>

namespace gateway {

namespace {

using namespace std::chrono_literals;

// A second, or less where the watchdog waits for less than four.
std::chrono::microseconds pause_of(const SystemdSocket &socket) {
    const auto watchdog = socket.watchdog();
    return watchdog ? std::min<std::chrono::microseconds>(1s, *watchdog / 4) : 1s;
}

} // namespace

SystemdNotifier::SystemdNotifier(SystemdSocket socket, std::function<Condition()> condition)
    : socket_(std::move(socket)), condition_(std::move(condition)) {
    if (socket_.is_there()) {
        thread_ = std::jthread([this](const std::stop_token &stop) { run(stop); });
    }
}

SystemdNotifier::~SystemdNotifier() {
    if (thread_.joinable()) {
        thread_.request_stop();
        thread_.join();
        socket_.send("STOPPING=1");
    }
}

void SystemdNotifier::run(const std::stop_token &stop) {
    while (!stop.stop_requested()) {
        tell(condition_());
        pause_for(pause_of(socket_), stop);
    }
}

void SystemdNotifier::tell(const Condition &now) {
    if (const std::string words = now.words(); words != told_) {
        told_ = words;
        socket_.send("STATUS=" + words);
    }
    if (!has_started_ && now.has_started()) {
        has_started_ = true;
        socket_.send("READY=1");
    }
    if (!shows_life(now)) {
        return;
    }
    socket_.send(has_started_ ? "WATCHDOG=1" : "EXTEND_TIMEOUT_USEC=60000000");
}

// A part may be silent for half of what the watchdog waits for, and then systemd waits for as long
// again as it does.
bool SystemdNotifier::shows_life(const Condition &now) const {
    const auto most = socket_.watchdog().value_or(60s) / 2;
    return !now.silent || now.silent->time < most;
}

} // namespace gateway
