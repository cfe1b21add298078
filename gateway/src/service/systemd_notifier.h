// Tells systemd each second how the service is.
#ifndef GATEWAY_SERVICE_SYSTEMD_NOTIFIER_H
#define GATEWAY_SERVICE_SYSTEMD_NOTIFIER_H

#include "health/condition.h"
#include "service/systemd_socket.h"

#include <functional>
#include <string>
#include <thread>

namespace gateway {

// On a thread of its own: ready, once; what it does, as STATUS; and the watchdog's sign of life, as
// long as every part that does the work shows that it does. A start that goes on may take as long
// as the log is.
class SystemdNotifier {
  public:
    // Does nothing where systemd has not started the service.
    SystemdNotifier(SystemdSocket socket, std::function<Condition()> condition);
    ~SystemdNotifier();
    SystemdNotifier(const SystemdNotifier &) = delete;
    SystemdNotifier &operator=(const SystemdNotifier &) = delete;

  private:
    void run(const std::stop_token &stop);
    void tell(const Condition &now);
    bool shows_life(const Condition &now) const;

    const SystemdSocket socket_;
    const std::function<Condition()> condition_;
    bool has_started_ = false;
    std::string told_;
    std::jthread thread_;
};

} // namespace gateway

#endif
