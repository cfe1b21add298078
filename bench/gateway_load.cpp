// The two ends of bench/gateway.sh, both bare QuickFIX.
//
//     gateway_load echo SETTINGS FILE
//         an acceptor that puts each message into FILE, with an fdatasync, and answers it 297=0
//     gateway_load investor SETTINGS USERNAME PASSWORD DEADLINE
//         asks DLR1 once, prints `asked`, and stays until its input ends
//     gateway_load dealer SETTINGS USERNAME PASSWORD ONE_BY_ONE BURST [REQUEST]
//         quotes REQUEST, or else the request that it is shown: first ONE_BY_ONE times, each quote
//         behind the answer of the one before, then BURST times at once. Prints the median and the
//         99th percentile of the time to an answer, in microseconds, and how many answers a second
//         came in the burst
//
// QuickFIX's headers are those of C++14, so this file is too.
#include <quickfix/Application.h>
#include <quickfix/FileStore.h>
#include <quickfix/MessageStore.h>
#include <quickfix/Session.h>
#include <quickfix/SocketAcceptor.h>
#include <quickfix/SocketInitiator.h>
#include <quickfix/fix50sp2/Quote.h>
#include <quickfix/fix50sp2/QuoteRequest.h>
#include <quickfix/fix50sp2/QuoteStatusReport.h>

#include <fcntl.h>
#include <unistd.h>

#include <algorithm>
#include <chrono>
#include <condition_variable>
#include <cstdlib>
#include <iostream>
#include <mutex>
#include <stdexcept>
#include <string>
#include <vector>

namespace {

using Clock = std::chrono::steady_clock;
const std::chrono::seconds LONGEST_WAIT(60);

std::string field(const FIX::FieldMap &map, int tag) {
    return map.isSetField(tag) ? map.getField(tag) : std::string();
}

// What both ends have in common: a session, and the callbacks that say nothing.
class End : public FIX::Application {
  public:
    void onCreate(const FIX::SessionID &session) override { m_session = session; }
    void onLogon(const FIX::SessionID &) override {}
    void onLogout(const FIX::SessionID &) override {}
    void toAdmin(FIX::Message &, const FIX::SessionID &) override {}
    void toApp(FIX::Message &, const FIX::SessionID &) noexcept override {}
    void fromAdmin(const FIX::Message &, const FIX::SessionID &) noexcept override {}
    void fromApp(const FIX::Message &, const FIX::SessionID &) noexcept override {}

  protected:
    void send(FIX::Message &message) {
        message.getHeader().removeField(1128);
        FIX::Session::sendToTarget(message, m_session);
    }

  private:
    FIX::SessionID m_session;
};

class Echo : public End {
  public:
    explicit Echo(const char *path) : m_file(::open(path, O_WRONLY | O_CREAT | O_APPEND, 0600)) {
        if (m_file < 0)
            throw std::runtime_error("the file cannot be opened");
    }
    ~Echo() override { ::close(m_file); }
    Echo(const Echo &) = delete;
    Echo &operator=(const Echo &) = delete;

    void fromApp(const FIX::Message &message, const FIX::SessionID &) noexcept override {
        const std::string bytes = message.toString();
        const auto size = static_cast<ssize_t>(bytes.size());
        if (::write(m_file, bytes.data(), bytes.size()) != size || ::fdatasync(m_file) != 0)
            std::abort();
        FIX50SP2::QuoteStatusReport answer;
        answer.setField(131, field(message, 131));
        answer.setField(117, field(message, 117));
        answer.setField(297, "0");
        send(answer);
    }

  private:
    int m_file;
};

// A firm that logs on, and waits for messages by their type.
class Firm : public End {
  public:
    Firm(std::string username, std::string password)
        : m_username(std::move(username)), m_password(std::move(password)) {}

    void toAdmin(FIX::Message &message, const FIX::SessionID &) override {
        if (field(message.getHeader(), 35) != "A")
            return;
        message.setField(553, m_username);
        message.setField(554, m_password);
    }
    void onLogon(const FIX::SessionID &) override {
        change([this] { m_is_on = true; });
    }
    void fromApp(const FIX::Message &message, const FIX::SessionID &) noexcept override {
        const std::string type = field(message.getHeader(), 35);
        change([&] {
            if (type == "R")
                m_request = field(message, 131);
            if (type == "AI" && field(message, 297) == "0")
                ++m_accepted;
            if (type == "AI" && field(message, 297) != "0")
                ++m_refused;
        });
    }

    void wait_on() {
        wait([this] { return m_is_on; });
    }
    std::string wait_request() {
        wait([this] { return !m_request.empty(); });
        return m_request;
    }
    void wait_answers(std::size_t count) {
        wait([=] { return m_accepted + m_refused >= count; });
        if (m_refused)
            throw std::runtime_error("a quote was refused");
    }

    void ask(const std::string &deadline) {
        FIX50SP2::QuoteRequest request;
        request.setField(131, "A1");
        FIX50SP2::QuoteRequest::NoRelatedSym row;
        for (const auto &item :
             {std::make_pair(55, "[N/A]"), std::make_pair(48, "BONDA0000001"),
              std::make_pair(22, "4"), std::make_pair(54, "1"), std::make_pair(38, "2000000")})
            row.setField(item.first, item.second);
        row.setField(126, deadline);
        FIX50SP2::QuoteRequest::NoRelatedSym::NoPartyIDs dealer;
        dealer.setField(448, "DLR1");
        dealer.setField(447, "D");
        dealer.setField(452, "35");
        row.addGroup(dealer);
        request.addGroup(row);
        request.getHeader().setField(50, "V1");
        send(request);
    }
    void quote(const std::string &request, std::size_t number) {
        FIX50SP2::Quote quote;
        quote.setField(117, "l" + std::to_string(number));
        quote.setField(131, request);
        quote.setField(48, "BONDA0000001");
        quote.setField(22, "4");
        quote.setField(133, number % 2 ? "99.5" : "99.25");
        quote.getHeader().setField(50, "T1");
        send(quote);
    }

  private:
    template <typename Change> void change(Change what) {
        const std::lock_guard<std::mutex> lock(m_mutex);
        what();
        m_changed.notify_all();
    }
    template <typename Holds> void wait(Holds holds) {
        std::unique_lock<std::mutex> lock(m_mutex);
        if (!m_changed.wait_for(lock, LONGEST_WAIT, holds))
            throw std::runtime_error("no answer in 60 s");
    }

    std::string m_username, m_password;
    std::mutex m_mutex;
    std::condition_variable m_changed;
    bool m_is_on = false;
    std::string m_request;
    std::size_t m_accepted = 0, m_refused = 0;
};

double microseconds(Clock::duration time) {
    return std::chrono::duration<double, std::micro>(time).count();
}

void measure(Firm &firm, const std::string &request, std::size_t one_by_one, std::size_t burst) {
    std::vector<double> times;
    for (std::size_t number = 1; number <= one_by_one; ++number) {
        const auto began = Clock::now();
        firm.quote(request, number);
        firm.wait_answers(number);
        times.push_back(microseconds(Clock::now() - began));
    }
    std::sort(times.begin(), times.end());
    const auto began = Clock::now();
    for (std::size_t number = 1; number <= burst; ++number)
        firm.quote(request, one_by_one + number);
    firm.wait_answers(one_by_one + burst);
    const double seconds = microseconds(Clock::now() - began) / 1e6;
    std::cout << times[times.size() / 2] << ' ' << times[times.size() * 99 / 100] << ' '
              << static_cast<double>(burst) / seconds << std::endl;
}

void until_input_ends() {
    std::string line;
    while (std::getline(std::cin, line)) {
    }
}

void run_echo(char **words) {
    Echo echo(words[3]);
    const FIX::SessionSettings settings(words[2]);
    FIX::FileStoreFactory stores(settings);
    FIX::SocketAcceptor acceptor(echo, stores, settings);
    acceptor.start();
    std::cout << "ready" << std::endl;
    until_input_ends();
    acceptor.stop();
}

void run_firm(int count, char **words) {
    const std::string role = words[1];
    Firm firm(words[3], words[4]);
    const FIX::SessionSettings settings(words[2]);
    // A firm's engine is on a machine of its own: what it writes there is no write of this disk.
    FIX::MemoryStoreFactory stores;
    FIX::SocketInitiator initiator(firm, stores, settings);
    initiator.start();
    firm.wait_on();
    if (role == "investor") {
        firm.ask(words[5]);
        std::cout << "asked" << std::endl;
        until_input_ends();
    } else {
        const std::string request = count > 7 ? words[7] : firm.wait_request();
        measure(firm, request, std::stoul(words[5]), std::stoul(words[6]));
    }
    initiator.stop();
}

} // namespace

int main(int count, char **words) {
    const std::string role = count > 1 ? words[1] : "";
    const bool known = (role == "echo" && count == 4) || (role == "investor" && count == 6) ||
                       (role == "dealer" && count >= 7);
    if (!known) {
        std::cerr << "usage: see the head of gateway_load.cpp" << std::endl;
        return 2;
    }
    try {
        if (role == "echo")
            run_echo(words);
        else
            run_firm(count, words);
        return 0;
    } catch (const std::exception &fault) {
        std::cerr << role << ": " << fault.what() << std::endl;
        return 1;
    }
}
