#include "session/channel.h"

#include "common/regular_file.h"

#include <cerrno>
#include <cstring>
#include <stdexcept>
#include <vector>

#include <openssl/err.h>
#include <openssl/ssl.h>
#include <openssl/x509.h>
#include <sys/socket.h>

namespace gateway {

namespace {

// The reason of the newest fault of OpenSSL.
std::string openssl_fault() {
    const unsigned long code = ERR_peek_last_error();
    ERR_clear_error();
    const char *reason = code == 0 ? nullptr : ERR_reason_error_string(code);
    return reason == nullptr ? "TLS failed" : reason;
}

void require(bool holds, const std::string &what) {
    if (!holds) {
        throw std::runtime_error(what + ": " + openssl_fault());
    }
}

// Else OpenSSL might wait at it without end.
void require_files(const EngineSettings &settings) {
    for (const std::string &file :
         {settings.certificate, settings.key, settings.authorities, settings.revoked}) {
        if (may_have_no_end(file)) {
            throw std::runtime_error(file + ": is no file");
        }
    }
}

// By a list that is over, or has not begun, each certificate is refused.
void require_lists_of_now(X509_STORE *store, const std::string &file) {
    STACK_OF(X509_OBJECT) *const all = X509_STORE_get0_objects(store);
    for (int at = 0; at < sk_X509_OBJECT_num(all); ++at) {
        X509_CRL *const list = X509_OBJECT_get0_X509_CRL(sk_X509_OBJECT_value(all, at));
        if (list == nullptr) {
            continue;
        }
        const ASN1_TIME *const end = X509_CRL_get0_nextUpdate(list);
        if (end != nullptr && X509_cmp_current_time(end) <= 0) {
            throw std::runtime_error(file + ": the time of this list of revoked certificates is "
                                            "over: put a new one in its place");
        }
        if (X509_cmp_current_time(X509_CRL_get0_lastUpdate(list)) >= 0) {
            throw std::runtime_error(
                file + ": the time of this list of revoked certificates has not begun");
        }
    }
}

struct FreeCertificate {
    void operator()(X509 *certificate) const { X509_free(certificate); }
};
struct FreeCheck {
    void operator()(X509_STORE_CTX *check) const { X509_STORE_CTX_free(check); }
};

} // namespace

void TlsServer::Free::operator()(ssl_ctx_st *context) const {
    SSL_CTX_free(context);
}

void Channel::Free::operator()(ssl_st *connection) const {
    SSL_free(connection);
}

TlsServer::TlsServer(const EngineSettings &settings)
    : context_(SSL_CTX_new(TLS_server_method())), asks_(settings.client_certificates) {
    const std::string &certificate = settings.certificate;
    const std::string &key = settings.key;
    require(context_ != nullptr, "TLS");
    require_files(settings);
    SSL_CTX_set_min_proto_version(context_.get(), TLS1_2_VERSION);
    // Those of TLS 1.2 by which nobody reads what was said before he had the key. All of TLS 1.3
    // are such.
    require(SSL_CTX_set_cipher_list(context_.get(), "ECDHE+AESGCM:ECDHE+CHACHA20") == 1, "TLS");
    // Keys are agreed on by curves alone. By the groups of numbers that TLS 1.3 has beside them
    // (ffdhe8192 above all) one small message of whoever connects, which costs its sender nothing,
    // would take a processor for a fifth of a second.
    require(SSL_CTX_set1_groups_list(context_.get(), "X25519:P-256:X448:P-521:P-384") == 1, "TLS");
    // No session of TLS is resumed: each connection shows its certificate. (OpenSSL refuses a
    // handshake that would resume one, where certificates are asked for and it has no context.)
    SSL_CTX_set_options(context_.get(), SSL_OP_NO_RENEGOTIATION | SSL_OP_NO_TICKET);
    SSL_CTX_set_session_cache_mode(context_.get(), SSL_SESS_CACHE_OFF);
    SSL_CTX_set_num_tickets(context_.get(), 0);
    SSL_CTX_set_mode(context_.get(),
                     SSL_MODE_ENABLE_PARTIAL_WRITE | SSL_MODE_ACCEPT_MOVING_WRITE_BUFFER);
    // A read comes back after each record that brings no bytes: or one who sends nothing but such
    // ones, as TLS 1.3's updates of keys, would keep its connection for ever.
    SSL_CTX_clear_mode(context_.get(), SSL_MODE_AUTO_RETRY);
    require(SSL_CTX_use_certificate_chain_file(context_.get(), certificate.c_str()) == 1,
            certificate);
    require(SSL_CTX_use_PrivateKey_file(context_.get(), key.c_str(), SSL_FILETYPE_PEM) == 1, key);
    require(SSL_CTX_check_private_key(context_.get()) == 1, key);
    if (asks_) {
        ask_for_certificates(settings);
    }
}

void TlsServer::ask_for_certificates(const EngineSettings &settings) {
    const std::string &authorities = settings.authorities;
    require(SSL_CTX_load_verify_locations(context_.get(), authorities.c_str(), nullptr) == 1,
            authorities);
    SSL_CTX_set_client_CA_list(context_.get(), SSL_load_client_CA_file(authorities.c_str()));
    SSL_CTX_set_verify(context_.get(), SSL_VERIFY_PEER | SSL_VERIFY_FAIL_IF_NO_PEER_CERT, nullptr);
    if (settings.revoked.empty()) {
        return;
    }
    X509_STORE *const store = SSL_CTX_get_cert_store(context_.get());
    X509_LOOKUP *const files = X509_STORE_add_lookup(store, X509_LOOKUP_file());
    require(files != nullptr &&
                X509_load_crl_file(files, settings.revoked.c_str(), X509_FILETYPE_PEM) > 0,
            settings.revoked);
    require_lists_of_now(store, settings.revoked);
    X509_STORE_set_flags(store, X509_V_FLAG_CRL_CHECK);
}

TlsServer::~TlsServer() = default;

std::shared_ptr<const TlsServer> tls_of(const EngineSettings &settings) {
    return settings.certificate.empty() ? nullptr : std::make_shared<const TlsServer>(settings);
}

Channel::Channel(Descriptor socket, const TlsServer *server) : socket_(std::move(socket)) {
    if (server != nullptr) {
        tls_.reset(SSL_new(server->context()));
        require(tls_ != nullptr && SSL_set_fd(tls_.get(), socket_.number()) == 1, "TLS");
        SSL_set_accept_state(tls_.get());
    }
}

Channel::~Channel() = default;

Channel::Progress Channel::ended(const std::string &fault) {
    if (fault_.empty()) {
        fault_ = fault;
    }
    return Progress::ended;
}

Channel::Progress Channel::progress_of(int result) {
    switch (SSL_get_error(tls_.get(), result)) {
    case SSL_ERROR_WANT_READ:
        return Progress::wants_read;
    case SSL_ERROR_WANT_WRITE:
        return Progress::wants_write;
    case SSL_ERROR_ZERO_RETURN:
        return ended("the peer closed");
    case SSL_ERROR_SYSCALL:
        return ended(errno == 0 ? "the peer closed" : std::strerror(errno));
    default:
        return ended(openssl_fault());
    }
}

Channel::Progress Channel::shake_hands() {
    if (!tls_) {
        return Progress::done;
    }
    ERR_clear_error();
    const int result = SSL_accept(tls_.get());
    return result == 1 ? Progress::done : progress_of(result);
}

// A record that has come in part stays with TLS until the rest comes.
Channel::Progress Channel::read_record(char *bytes, std::size_t room, std::size_t &count) {
    BIO *const source = SSL_get_rbio(tls_.get());
    const std::uint64_t before = BIO_number_read(source);
    ERR_clear_error();
    const int result = SSL_read_ex(tls_.get(), bytes, room, &count);
    const Progress progress = result == 1 ? Progress::done : progress_of(result);
    const std::uint64_t came = BIO_number_read(source) - before;
    if (progress != Progress::wants_read || came == 0 || holds_more()) {
        return progress;
    }
    count = came;
    return Progress::empty;
}

Channel::Progress Channel::read(char *bytes, std::size_t room, std::size_t &count) {
    if (tls_) {
        return read_record(bytes, room, count);
    }
    const ssize_t result = ::recv(socket_.number(), bytes, room, MSG_DONTWAIT);
    if (result > 0) {
        count = static_cast<std::size_t>(result);
        return Progress::done;
    }
    if (result == 0) {
        return ended("the peer closed");
    }
    if (errno == EAGAIN || errno == EWOULDBLOCK || errno == EINTR) {
        return Progress::wants_read;
    }
    return ended(std::strerror(errno));
}

bool Channel::holds_more() const {
    return tls_ != nullptr && SSL_has_pending(tls_.get()) == 1;
}

Channel::Progress Channel::write(const char *bytes, std::size_t size, std::size_t &count) {
    if (tls_) {
        ERR_clear_error();
        const int result = SSL_write_ex(tls_.get(), bytes, size, &count);
        return result == 1 ? Progress::done : progress_of(result);
    }
    const ssize_t result = ::send(socket_.number(), bytes, size, MSG_DONTWAIT | MSG_NOSIGNAL);
    if (result >= 0) {
        count = static_cast<std::size_t>(result);
        return Progress::done;
    }
    if (errno == EAGAIN || errno == EWOULDBLOCK || errno == EINTR) {
        return Progress::wants_write;
    }
    return ended(std::strerror(errno));
}

std::size_t Channel::write_at_once(const char *bytes, std::size_t size) const {
    if (tls_) {
        return 0;
    }
    const ssize_t result = ::send(socket_.number(), bytes, size, MSG_DONTWAIT | MSG_NOSIGNAL);
    return result > 0 ? static_cast<std::size_t>(result) : 0;
}

void Channel::end_writing() {
    ::shutdown(socket_.number(), SHUT_WR);
}

void Channel::shut() {
    ::shutdown(socket_.number(), SHUT_RDWR);
}

std::string Channel::common_name() const {
    // Before the end of the handshake the client has not shown that it has the key.
    if (!tls_ || SSL_is_init_finished(tls_.get()) != 1) {
        return {};
    }
    const std::unique_ptr<X509, FreeCertificate> certificate(SSL_get1_peer_certificate(tls_.get()));
    if (!certificate) {
        return {};
    }
    X509_NAME *name = X509_get_subject_name(certificate.get());
    const int at = X509_NAME_get_index_by_NID(name, NID_commonName, -1);
    // A name that stands twice is none.
    if (at < 0 || X509_NAME_get_index_by_NID(name, NID_commonName, at) >= 0) {
        return {};
    }
    const ASN1_STRING *text = X509_NAME_ENTRY_get_data(X509_NAME_get_entry(name, at));
    return std::string(reinterpret_cast<const char *>(ASN1_STRING_get0_data(text)),
                       static_cast<std::size_t>(ASN1_STRING_length(text)));
}

bool Channel::is_taken_by(const TlsServer &server) const {
    if (!tls_ || !server.asks_for_certificates()) {
        return true;
    }
    const std::unique_ptr<X509, FreeCertificate> certificate(SSL_get1_peer_certificate(tls_.get()));
    const std::unique_ptr<X509_STORE_CTX, FreeCheck> check(X509_STORE_CTX_new());
    const bool is_taken =
        certificate && check &&
        X509_STORE_CTX_init(check.get(), SSL_CTX_get_cert_store(server.context()),
                            certificate.get(), SSL_get_peer_cert_chain(tls_.get())) == 1 &&
        X509_STORE_CTX_set_default(check.get(), "ssl_client") == 1 &&
        X509_verify_cert(check.get()) == 1;
    ERR_clear_error();
    return is_taken;
}

} // namespace gateway
