#include "session/last_right_tls.h"

#include <exception>
#include <map>
#include <mutex>
#include <string>
#include <tuple>
#include <utility>

namespace gateway {

namespace {

using Files = std::tuple<std::string, std::string, std::string, std::string, bool>;

Files files_of(const EngineSettings &settings) {
    return {settings.certificate, settings.key, settings.authorities, settings.revoked,
            settings.client_certificates};
}

class LastRight {
  public:
    void keep(const Files &files, std::shared_ptr<const TlsServer> server) {
        const std::lock_guard lock(mutex_);
        servers_[files] = std::move(server);
    }
    std::shared_ptr<const TlsServer> of(const Files &files) {
        const std::lock_guard lock(mutex_);
        const auto found = servers_.find(files);
        return found == servers_.end() ? nullptr : found->second;
    }

  private:
    std::mutex mutex_;
    std::map<Files, std::shared_ptr<const TlsServer>> servers_;
};

LastRight &last_right() {
    static LastRight kept;
    return kept;
}

} // namespace

std::shared_ptr<const TlsServer> tls_of_now(const EngineSettings &settings) {
    auto server = tls_of(settings);
    last_right().keep(files_of(settings), server);
    return server;
}

std::shared_ptr<const TlsServer> last_right_tls_of(const EngineSettings &settings) {
    try {
        return tls_of_now(settings);
    } catch (const std::exception &) {
        if (auto server = last_right().of(files_of(settings))) {
            return server;
        }
        throw;
    }
}

} // namespace gateway
