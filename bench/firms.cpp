// All that a day of a venue accepts, by firms in plain C++: auction after auction, each a request,
// the quotes of the dealers that it asks, and a hit on the last of them.
//
//     firms PORT VENUE DEALERS INVESTORS AUCTIONS ASKED QUOTES DEADLINE
//
// VENUE is what a Logon names in TargetSubID, or `-`. Each investor has AUCTIONS auctions, one
// after the other, of ASKED dealers; each of these quotes QUOTES times, at once, as soon as it is
// asked. DEADLINE is the requests' 126. All log on, and `ready` is printed; with a line of input
// they begin. At the end it prints the messages that were sent, the seconds that they took, the
// median and the 99th percentile of the time from a message to its 297=0 in microseconds, and the
// seconds of a processor that the firms themselves took.
#include <arpa/inet.h>
#include <netinet/in.h>
#include <netinet/tcp.h>
#include <poll.h>
#include <sys/epoll.h>
#include <sys/resource.h>
#include <sys/socket.h>
#include <unistd.h>

#include <algorithm>
#include <cerrno>
#include <chrono>
#include <cstdio>
#include <cstring>
#include <ctime>
#include <deque>
#include <iostream>
#include <stdexcept>
#include <string>
#include <string_view>
#include <vector>

namespace {

using Clock = std::chrono::steady_clock;
constexpr int longest_wait = 60'000; // milliseconds

struct Market {
    std::string venue, deadline;
    unsigned dealers, investors, auctions, asked, quotes;
};

// SendingTime (52) of now.
const std::string &stamp() {
    static long known = 0;
    static std::string text;
    timespec now{};
    ::clock_gettime(CLOCK_REALTIME, &now);
    const long milliseconds = now.tv_sec * 1000 + now.tv_nsec / 1'000'000;
    if (milliseconds != known) {
        known = milliseconds;
        tm day{};
        ::gmtime_r(&now.tv_sec, &day);
        char bytes[32];
        const std::size_t size = std::strftime(bytes, sizeof bytes, "%Y%m%d-%H:%M:%S", &day);
        std::snprintf(bytes + size, sizeof bytes - size, ".%03ld", milliseconds % 1000);
        text = bytes;
    }
    return text;
}

std::string_view value_in(std::string_view frame, std::string_view mark) {
    const std::size_t begin = frame.find(mark);
    if (begin == std::string_view::npos)
        return {};
    const std::size_t from = begin + mark.size();
    return frame.substr(from, frame.find('\x01', from) - from);
}

#define TAG(number) "\x01" number "="

// Behind the letter with which each name of a message begins.
unsigned long number_in(std::string_view name) {
    return name.empty() ? 0 : std::stoul(std::string(name.substr(1)));
}

class Firm {
  public:
    Firm(std::string name, std::string trader, bool is_dealer, int port, const std::string &venue)
        : is_dealer(is_dealer), name_(std::move(name)), trader_(std::move(trader)),
          socket_(::socket(AF_INET, SOCK_STREAM | SOCK_CLOEXEC, 0)) {
        sockaddr_in to{};
        to.sin_family = AF_INET;
        to.sin_port = htons(static_cast<std::uint16_t>(port));
        to.sin_addr.s_addr = htonl(INADDR_LOOPBACK);
        const int on = 1;
        if (::connect(socket_, reinterpret_cast<sockaddr *>(&to), sizeof to) != 0)
            throw std::runtime_error(std::string("connect: ") + std::strerror(errno));
        ::setsockopt(socket_, IPPROTO_TCP, TCP_NODELAY, &on, sizeof on);
        put("A", (venue == "-" ? "" : "57=" + venue + "\x01") + "98=0\x01" + "108=60\x01" +
                     "553=" + name_ + "\x01" + "554=secret\x01" + "1137=9\x01");
    }
    Firm(const Firm &) = delete;
    Firm &operator=(const Firm &) = delete;
    ~Firm() { ::close(socket_); }

    const bool is_dealer;
    std::vector<unsigned> shown; // of each of its requests, the quotes that came
    unsigned asked = 0;

    int socket() const { return socket_; }
    const std::string &name() const { return name_; }

    void put(const char *type, std::string_view fields) {
        std::string body = "35=";
        body.append(type).append(TAG("49")).append(name_).append(TAG("56") "VENUE" TAG("34"));
        body.append(std::to_string(next_++)).append(TAG("52")).append(stamp()).append("\x01");
        if (fields.find("553=") == std::string_view::npos && *type != '0')
            body.append("50=").append(trader_).append("\x01");
        body.append(fields);
        const std::size_t begin = out_.size();
        out_.append("8=FIXT.1.1" TAG("9")).append(std::to_string(body.size())).append("\x01");
        out_.append(body);
        unsigned sum = 0;
        for (std::size_t at = begin; at < out_.size(); ++at)
            sum += static_cast<unsigned char>(out_[at]);
        char trailer[16];
        std::snprintf(trailer, sizeof trailer, "10=%03u\x01", sum % 256);
        out_ += trailer;
    }
    // The name of its next message, which is answered.
    std::string named() {
        shown.push_back(0);
        sent_.push_back(Clock::now());
        return "m" + std::to_string(sent_.size() - 1);
    }
    double since(std::string_view name) const {
        const auto took = Clock::now() - sent_.at(number_in(name));
        return std::chrono::duration<double, std::micro>(took).count();
    }
    std::size_t messages() const { return sent_.size(); }

    // Sends what waits. It is little, so that the gateway takes it without reading.
    void flush() {
        while (!out_.empty()) {
            const ssize_t count = ::send(socket_, out_.data(), out_.size(), MSG_NOSIGNAL);
            if (count < 0)
                throw std::runtime_error(name_ + ": send: " + std::strerror(errno));
            out_.erase(0, static_cast<std::size_t>(count));
        }
    }
    // Shows each message of what has come.
    template <typename See> void read(See see) {
        char bytes[65536];
        const ssize_t count = ::recv(socket_, bytes, sizeof bytes, MSG_DONTWAIT);
        if (count == 0 || (count < 0 && errno != EAGAIN))
            throw std::runtime_error(name_ + ": the gateway has ended its connection");
        in_.append(bytes, static_cast<std::size_t>(std::max<ssize_t>(count, 0)));
        std::string_view rest = in_;
        for (std::size_t size = first_of(rest); size > 0; size = first_of(rest)) {
            see(rest.substr(0, size));
            rest.remove_prefix(size);
        }
        in_.erase(0, in_.size() - rest.size());
    }

  private:
    // The length of the first frame; 0 if it is not whole.
    static std::size_t first_of(std::string_view bytes) {
        constexpr std::size_t head = std::string_view("8=FIXT.1.1|9=").size();
        constexpr std::size_t trailer = std::string_view("10=000|").size();
        const std::size_t end = bytes.find('\x01', std::min(head, bytes.size()));
        if (end == std::string_view::npos)
            return 0;
        const std::size_t size =
            end + 1 + std::stoul(std::string(bytes.substr(head, end - head))) + trailer;
        return size <= bytes.size() ? size : 0;
    }

    std::string name_, trader_, in_, out_;
    int socket_;
    unsigned next_ = 1;
    std::vector<Clock::time_point> sent_; // by the numbers in their names
};

class Day {
  public:
    Day(Market market, int port) : market_(std::move(market)), epoll_(::epoll_create1(0)) {
        for (unsigned number = 1; number <= market_.dealers; ++number)
            log_on(firms_.emplace_back("DLR" + std::to_string(number), "T1", true, port,
                                       market_.venue));
        for (unsigned number = 1; number <= market_.investors; ++number)
            log_on(firms_.emplace_back("INV" + std::to_string(number), "V1", false, port,
                                       market_.venue));
    }
    ~Day() { ::close(epoll_); }

    void play() {
        left_ = market_.investors * market_.auctions * (market_.asked * market_.quotes + 2);
        for (Firm &firm : firms_) {
            if (!firm.is_dealer)
                ask(firm);
            firm.flush();
        }
        while (left_ > 0)
            look();
    }
    void print(double seconds, double processor) {
        std::size_t messages = 0;
        for (const Firm &firm : firms_)
            messages += firm.messages();
        std::sort(times_.begin(), times_.end());
        std::printf("%zu %.4f %.1f %.1f %.4f\n", messages, seconds, times_[times_.size() / 2],
                    times_[times_.size() * 99 / 100], processor);
    }

  private:
    // One by one: of strangers from one address only some may wait.
    void log_on(Firm &firm) {
        bool is_on = false;
        const auto see = [&](std::string_view frame) {
            const std::string_view type = value_in(frame, TAG("35"));
            is_on = is_on || type == "A";
            if (type == "5")
                throw std::runtime_error(firm.name() + " is not let in: " + std::string(frame));
            come(firm, frame);
        };
        while (!is_on) {
            firm.flush();
            pollfd one{firm.socket(), POLLIN, 0};
            if (::poll(&one, 1, longest_wait) != 1)
                throw std::runtime_error(firm.name() + " is not answered");
            firm.read(see);
        }
        epoll_event wanted{};
        wanted.events = EPOLLIN;
        wanted.data.ptr = &firm;
        ::epoll_ctl(epoll_, EPOLL_CTL_ADD, firm.socket(), &wanted);
    }

    void look() {
        epoll_event found[64];
        const int count = ::epoll_wait(epoll_, found, 64, longest_wait);
        if (count <= 0)
            throw std::runtime_error("no answer in 60 s");
        for (int at = 0; at < count; ++at) {
            Firm &firm = *static_cast<Firm *>(found[at].data.ptr);
            firm.read([&](std::string_view frame) { come(firm, frame); });
            firm.flush();
        }
    }

    void come(Firm &firm, std::string_view frame) {
        const std::string_view type = value_in(frame, TAG("35"));
        if (type == "1")
            firm.put("0", "112=" + std::string(value_in(frame, TAG("112"))) + "\x01");
        else if (type == "R")
            quote(firm, value_in(frame, TAG("131")));
        else if (type == "S")
            show(firm, frame);
        else if (type == "AI")
            answer(firm, frame);
        else if (type == "3" || type == "j" || type == "5")
            throw std::runtime_error(firm.name() + " is told " + std::string(frame));
    }
    void answer(Firm &firm, std::string_view frame) {
        const std::string_view status = value_in(frame, TAG("297"));
        if (status == "17")
            return; // another dealer's quote stands in the place of one
        if (status != "0")
            throw std::runtime_error(firm.name() + " is refused: " + std::string(frame));
        const std::string_view hit = value_in(frame, TAG("693"));
        const std::string_view name =
            !hit.empty() ? hit : value_in(frame, firm.is_dealer ? TAG("117") : TAG("131"));
        times_.push_back(firm.since(name));
        --left_;
        if (!hit.empty() && firm.asked < market_.auctions)
            ask(firm);
    }

    void ask(Firm &firm) {
        std::string fields = "131=" + firm.named() +
                             TAG("146") "1" TAG("55") "[N/A]" TAG("48") "BONDA0000001" TAG(
                                 "22") "4" TAG("54") "1" TAG("38") "2000000" +
                             TAG("126") + market_.deadline + TAG("453") +
                             std::to_string(market_.asked);
        for (unsigned at = 0; at < market_.asked; ++at)
            fields += TAG("448") "DLR" + std::to_string(1 + turn_++ % market_.dealers) +
                      TAG("447") "D" TAG("452") "35";
        ++firm.asked;
        firm.put("R", fields + "\x01");
    }
    void quote(Firm &firm, std::string_view request) {
        for (unsigned at = 0; at < market_.quotes; ++at)
            firm.put("S", "117=" + firm.named() + TAG("131") + std::string(request) +
                              TAG("48") "BONDA0000001" TAG("22") "4" TAG("133") "99." +
                              (at % 2 == 0 ? "5" : "4375") + "\x01");
    }
    // The last of all quotes on a request is hit.
    void show(Firm &firm, std::string_view frame) {
        unsigned &shown = firm.shown.at(number_in(value_in(frame, TAG("131"))));
        if (++shown == market_.asked * market_.quotes)
            firm.put("AJ", "693=" + firm.named() + TAG("694") "1" TAG("117") +
                               std::string(value_in(frame, TAG("117"))) + "\x01");
    }

    Market market_;
    int epoll_;
    std::deque<Firm> firms_;
    std::vector<double> times_;
    std::size_t left_ = 0; // answers that are to come
    unsigned turn_ = 0;    // whose turn it is to be asked
};

double processor_seconds() {
    rusage used{};
    ::getrusage(RUSAGE_SELF, &used);
    const auto seconds = [](const timeval &time) {
        return static_cast<double>(time.tv_sec) + static_cast<double>(time.tv_usec) / 1e6;
    };
    return seconds(used.ru_utime) + seconds(used.ru_stime);
}

void run(char **words) {
    const auto number = [&](int at) { return static_cast<unsigned>(std::stoul(words[at])); };
    Day day({words[2], words[8], number(3), number(4), number(5), number(6), number(7)},
            static_cast<int>(number(1)));
    std::cout << "ready" << std::endl;
    std::string line;
    std::getline(std::cin, line);
    const double before = processor_seconds();
    const auto began = Clock::now();
    day.play();
    const std::chrono::duration<double> took = Clock::now() - began;
    day.print(took.count(), processor_seconds() - before);
}

} // namespace

int main(int count, char **words) {
    if (count != 9) {
        std::cerr << "usage: see the head of firms.cpp" << std::endl;
        return 2;
    }
    try {
        run(words);
        return 0;
    } catch (const std::exception &fault) {
        std::cerr << "firms: " << fault.what() << std::endl;
        return 1;
    }
}
