#include "service/monitor.h"

#include "common/web/server.h"
#include "common/web/static_files.h"
#include "service/monitor_files.h"

#include <exception>
#include <stdexcept>
#include <thread>
#include <utility>

#include <boost/asio/io_context.hpp>
#include <fmt/format.h>

namespace gateway {

namespace {

// A few programs and people of this machine.
web::ServerSettings settings_at(unsigned short port) {
    web::ServerSettings settings;
    settings.port = port;
    settings.limits.connections = 32;
    settings.limits.connections_per_address = 32;
    settings.limits.header_bytes = 8192;
    settings.limits.body_bytes = 1024;
    return settings;
}

web::Response line(bool is_well, const std::string &words) {
    return {is_well ? 200U : 503U, "text/plain; charset=utf-8", words + "\n", {}};
}

class MonitorSite final : public web::Site {
  public:
    explicit MonitorSite(MonitorSources sources) : sources_(std::move(sources)) {
        add_monitor_files(files_);
    }

    void answer(const web::Request &request, web::Reply reply) override {
        try {
            reply(response_to(request));
        } catch (const std::exception &fault) {
            reply({500, "text/plain; charset=utf-8", std::string(fault.what()) + "\n", {}});
        }
    }

    std::shared_ptr<web::SocketUser> take_socket(const web::Request &) override { return nullptr; }

  private:
    web::Response response_to(const web::Request &request) const {
        if (request.method != web::Method::get) {
            return {405, "text/plain; charset=utf-8", "only GET\n", {{"Allow", "GET"}}};
        }
        if (request.path == "/metrics") {
            return {200, "text/plain; version=0.0.4; charset=utf-8", sources_.metrics(), {}};
        }
        if (request.path == "/") {
            return {200, "text/html; charset=utf-8", sources_.page(), {}};
        }
        if (request.path == "/health" || request.path == "/ready") {
            return of_condition(request.path);
        }
        return files_.find(request).value_or(
            web::Response{404, "text/plain; charset=utf-8", "nothing is here\n", {}});
    }

    web::Response of_condition(const std::string &path) const {
        const Condition now = sources_.condition();
        const bool is_healthy = !now.fault();
        const bool is_ready = is_healthy && now.phase == Phase::ready;
        return line(path == "/health" ? is_healthy : is_ready, now.words());
    }

    MonitorSources sources_;
    web::StaticFiles files_;
};

} // namespace

class Monitor::Parts {
  public:
    Parts(unsigned short port, MonitorSources sources)
        : site_(std::move(sources)), server_(io_, settings_at(port), site_),
          thread_([this] { io_.run(); }) {}
    ~Parts() { io_.stop(); }

  private:
    MonitorSite site_;
    boost::asio::io_context io_{1};
    web::Server server_;
    std::jthread thread_;
};

Monitor::Monitor(unsigned short port, MonitorSources sources) {
    if (port == 0) {
        return;
    }
    try {
        parts_ = std::make_unique<Parts>(port, std::move(sources));
    } catch (const std::exception &fault) {
        throw std::runtime_error(fmt::format("metrics at 127.0.0.1:{}: {}", port, fault.what()));
    }
}

Monitor::~Monitor() = default;

} // namespace gateway
