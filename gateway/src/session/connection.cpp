#include "session/connection.h"

#include "session/refusal_words.h"
#include "session/sessions.h"

#include <algorithm>
#include <array>
#include <cerrno>
#include <cstring>
#include <stdexcept>

#include <poll.h>
#include <sys/eventfd.h>

namespace gateway {

namespace {

using std::chrono::milliseconds;
using std::chrono::seconds;

// How long a connection that ends may take to write what waits, and its peer to take it.
constexpr auto last_words = seconds(2);

// How often a Logon looks whether the old connection of its firm is gone.
constexpr auto look = milliseconds(20);

// How long a firm may be above its rate.
constexpr auto longest_held = seconds(5);

} // namespace

Connection::Connection(Descriptor socket, std::string peer, const TlsServer *tls, StrangerSlot slot,
                       const Sessions &sessions, const EngineSettings &settings,
                       EngineEvents &events)
    : peer_(std::move(peer)), given_(slot.number()), tls_(tls != nullptr), settings_(settings),
      events_(events), slot_(std::move(slot)), channel_(std::move(socket), tls),
      bell_(::eventfd(0, EFD_CLOEXEC | EFD_NONBLOCK)), handshakes_(sessions.handshakes()),
      opened_(Clock::now()), conversation_(sessions, events, *this), progress_(opened_),
      ticked_(opened_) {
    if (bell_.number() < 0) {
        throw std::runtime_error(std::string("no event descriptor: ") + std::strerror(errno));
    }
    events_.connection_opened(peer_);
    try {
        thread_ = std::thread([this] { run(); });
    } catch (const std::exception &) {
        events_.connection_closed(peer_);
        throw;
    }
}

Connection::~Connection() {
    shut("the gateway stops");
    thread_.join();
}

bool Connection::send(std::string_view bytes) {
    {
        const std::lock_guard<std::mutex> lock(mutex_);
        if (shut_) {
            return false;
        }
        // Where nothing waits, no other thread writes.
        const std::size_t written =
            unwritten_ == 0 ? channel_.write_at_once(bytes.data(), bytes.size()) : 0;
        if (written == bytes.size()) {
            return true;
        }
        waiting_.append(bytes.substr(written));
        unwritten_ += bytes.size() - written;
        if (unwritten_ <= settings_.waiting_bytes) {
            wake();
            return true;
        }
    }
    shut("the firm does not read");
    return false;
}

std::size_t Connection::waiting() const {
    const std::lock_guard<std::mutex> lock(mutex_);
    return unwritten_;
}

void Connection::finish(const std::string &why) {
    {
        const std::lock_guard<std::mutex> lock(mutex_);
        if (!finishing_) {
            finishing_ = true;
            finish_at_ = Clock::now() + last_words;
        }
        if (why_.empty()) {
            why_ = "the session ended it: " + why;
        }
    }
    wake();
}

void Connection::shut(const std::string &why) {
    {
        const std::lock_guard<std::mutex> lock(mutex_);
        if (why_.empty()) {
            why_ = why;
        }
        shut_ = true;
    }
    channel_.shut();
    wake();
}

void Connection::renew(std::shared_ptr<const TlsServer> server) {
    {
        const std::lock_guard<std::mutex> lock(mutex_);
        renewed_ = std::move(server);
    }
    wake();
}

void Connection::look_at_certificate() {
    std::shared_ptr<const TlsServer> server;
    {
        const std::lock_guard<std::mutex> lock(mutex_);
        server.swap(renewed_);
    }
    if (!server || channel_.is_taken_by(*server)) {
        return;
    }
    constexpr const char *why = "the certificate is not valid any more";
    if (admitted_) {
        conversation_.log_out(why);
    } else {
        // Its Logon is to come, or waits for the firm's old connection to end.
        shut(why);
    }
}

void Connection::shut_stranger(const std::string &why) {
    if (!admitted_) {
        shut(why);
    }
}

bool Connection::is_ending() const {
    const std::lock_guard<std::mutex> lock(mutex_);
    return shut_ || finishing_;
}

std::string Connection::why() const {
    const std::lock_guard<std::mutex> lock(mutex_);
    return why_;
}

// Its own thread looks anyway.
void Connection::wake() {
    if (!is_own_thread()) {
        ring();
    }
}

void Connection::ring() {
    const std::uint64_t one = 1;
    // A bell that is full rings already.
    const ssize_t written = ::write(bell_.number(), &one, sizeof one);
    static_cast<void>(written);
}

ConnectionFacts Connection::facts() const {
    return {peer_, channel_.common_name(), tls_};
}

void Connection::run() {
    owner_ = std::this_thread::get_id();
    try {
        talk();
    } catch (const std::exception &fault) {
        shut(fault.what());
    }
    try {
        conversation_.end(why());
    } catch (const std::exception &fault) {
        // The log takes nothing any more, and has told it.
        events_.refused("connection", peer_ + ": " + fault.what());
    }
    slot_.give_back();
    linger();
    channel_.shut();
    events_.connection_closed(peer_);
    ended_ = true;
}

void Connection::talk() {
    if (!shake_hands()) {
        return;
    }
    while (!is_ending()) {
        turn();
    }
}

bool Connection::shake_hands() {
    while (!shut_) {
        const Channel::Progress progress = go_on_with_handshake();
        if (progress == Channel::Progress::done) {
            return true;
        }
        if (progress == Channel::Progress::ended) {
            conversation_.turn_away(stranger_words::no_tls, channel_.fault());
            return false;
        }
        is_blocked_ = progress == Channel::Progress::wants_write;
        wait(true);
        keep_time();
    }
    return false;
}

// A step may be a signature, which takes a processor for a millisecond, and whoever connects may
// ask for it: strangers have their turns at it, one after the other of an address.
Channel::Progress Connection::go_on_with_handshake() {
    if (!tls_) {
        return Channel::Progress::done;
    }
    Channel::Progress progress = Channel::Progress::wants_read;
    const auto gives_up = [this] { return is_ending() || is_late(); };
    handshakes_.take(peer_.substr(0, peer_.rfind(':')), gives_up, [&] {
        progress = channel_.shake_hands();
        return Turns::Time();
    });
    return progress;
}

void Connection::turn() {
    const bool waits = conversation_.waits();
    // What it sends while its Logon waits is left where it is.
    wait(!waits && !is_held());
    look_at_certificate();
    if (is_ending()) {
        return;
    }
    if (waits) {
        look_again();
    } else {
        read();
    }
    serve(false);
    if (!admitted_ && conversation_.is_admitted()) {
        admitted_ = true;
        slot_.give_back();
    }
    write();
    if (conversation_.is_known() && Clock::now() - ticked_ >= tick) {
        // What the firm said while this thread had to wait for the log is no silence of it.
        if (admitted_) {
            read();
        }
        ticked_ = Clock::now();
        serve(true);
        write();
    }
    keep_time();
}

// Its Logon is judged anew, at the moment of now.
void Connection::look_again() {
    const Received now = std::chrono::system_clock::now();
    conversation_.look_again();
    time_goes_on_from(now);
}

// What is to leave does, and first what time brings about, where it is to tick.
void Connection::serve(bool ticks) {
    const Received now = firms_time();
    if (ticks) {
        conversation_.tick(now);
    }
    conversation_.serve(now);
    time_goes_on_from(now);
}

void Connection::wait(bool reads) {
    std::array<pollfd, 2> set{};
    set[0].fd = channel_.number();
    // Where it is blocked poll() would say at once, each time, that there is more to read.
    set[0].events = static_cast<short>((reads && !is_blocked_ ? POLLIN : 0) |
                                       (wants_write_ || is_blocked_ ? POLLOUT : 0));
    set[1].fd = bell_.number();
    set[1].events = POLLIN;
    const auto limit = std::chrono::ceil<milliseconds>(longest_wait());
    ::poll(set.data(), set.size(), static_cast<int>(limit.count()));
    if (set[0].events == 0 && (set[0].revents & (POLLERR | POLLHUP)) != 0) {
        // poll() says it again at once each time, and nothing is read that would find the end.
        shut("the peer has closed it");
    }
    if ((set[1].revents & POLLIN) != 0) {
        std::uint64_t rung = 0;
        const ssize_t count = ::read(bell_.number(), &rung, sizeof rung);
        static_cast<void>(count);
    }
}

// A firm that is above its rate is read when its rate lets it, and sent more when that does.
Connection::Clock::duration Connection::longest_wait() const {
    Clock::duration longest = conversation_.waits() ? look : tick;
    const Clock::time_point now = Clock::now();
    if (reads_from_ > now) {
        longest = std::min(longest, reads_from_ - now);
    }
    if (const auto from = conversation_.serves_from()) {
        longest = std::min(longest, std::max(*from - now, Clock::duration(0)));
    }
    return longest;
}

void Connection::write() {
    for (;;) {
        if (written_ == writing_.size()) {
            writing_.clear();
            written_ = 0;
            const std::lock_guard<std::mutex> lock(mutex_);
            writing_.swap(waiting_);
        }
        wants_write_ = !writing_.empty();
        if (!wants_write_) {
            progress_ = is_blocked_ ? progress_ : Clock::now();
            return;
        }
        std::size_t count = 0;
        const Channel::Progress progress =
            channel_.write(writing_.data() + written_, writing_.size() - written_, count);
        if (progress == Channel::Progress::ended) {
            shut(channel_.fault());
            return;
        }
        if (progress != Channel::Progress::done) {
            return;
        }
        written_ += count;
        progress_ = Clock::now();
        const std::lock_guard<std::mutex> lock(mutex_);
        unwritten_ -= count;
    }
}

// Whoever has not logged on by now.
bool Connection::is_late() const {
    return Clock::now() - opened_ >= seconds(settings_.logon_seconds);
}

void Connection::keep_time() {
    const Clock::time_point now = Clock::now();
    if (admitted_) {
        const Clock::duration is_left = std::max(reads_from_ - now, Clock::duration(0));
        if (held_for_ - is_left >= longest_held) {
            held_for_ = is_left;
            conversation_.is_held_too_long();
        }
        if ((wants_write_ || is_blocked_) && now - progress_ >= seconds(settings_.send_seconds)) {
            shut("the firm takes no byte");
        }
    } else if (!conversation_.waits() && !is_ending() && is_late()) {
        conversation_.turn_away(stranger_words::no_logon_in_time, "");
    }
}

} // namespace gateway
