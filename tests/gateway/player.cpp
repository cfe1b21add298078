// One firm's stock QuickFIX initiator, validation on. It sends what lines of standard input say,
// and puts each message of the venue into a file before the engine counts it, so that neither the
// file nor the engine's own store loses one when the process is ended by SIGKILL.
//
//     player SETTINGS RECEIVED USERNAME PASSWORD [tls]
//
// reads     send NAME HEX    sends the message of these bytes; 49, 56, 34 and 52 are the engine's
//           logoff, logon    ends the session, and lets it begin again
//           quit             logs out and ends; so does the end of the input
// prints    on, off          the session has begun, has ended
//           sent NAME N      the message is in the store under the number N
//           refused NAME WHY the engine does not send it
//           got              the file has one message more
//           admin HEX        a Reject of the engine itself or a Logout came
// PLAYER_VENUE  in the environment: the venue (57) that its Logons name
// RECEIVED  a line for each message of the venue: the nanoseconds of the monotonic clock and,
//           after one space, its bytes as they came, in hexadecimal digits
//
// QuickFIX's headers are those of C++14, so this file is too.
#include <quickfix/Application.h>
#include <quickfix/DataDictionary.h>
#include <quickfix/FileStore.h>
#include <quickfix/Log.h>
#include <quickfix/Session.h>
#include <quickfix/SocketInitiator.h>
#include <quickfix/ThreadedSSLSocketInitiator.h>

#include <fcntl.h>
#include <unistd.h>

#include <chrono>
#include <cstdlib>
#include <iostream>
#include <map>
#include <memory>
#include <mutex>
#include <sstream>
#include <stdexcept>
#include <string>

namespace {

const int USERNAME = 553;
const int PASSWORD = 554;
const int VENUE_NUMBER = 1181;
const int TARGET_SUB = 57;

std::string field(const FIX::FieldMap &map, int tag) {
    return map.isSetField(tag) ? map.getField(tag) : std::string();
}

std::string to_hex(const std::string &bytes) {
    static const char digits[] = "0123456789abcdef";
    std::string text;
    for (const char byte : bytes) {
        const unsigned char value = static_cast<unsigned char>(byte);
        text += digits[value / 16];
        text += digits[value % 16];
    }
    return text;
}

std::string from_hex(const std::string &text) {
    std::string bytes;
    for (std::size_t at = 0; at + 1 < text.size(); at += 2)
        bytes += static_cast<char>(std::stoi(text.substr(at, 2), nullptr, 16));
    return bytes;
}

// A file that is only ever added to, a whole line by one write.
class Lines {
  public:
    explicit Lines(const std::string &path)
        : m_file(::open(path.c_str(), O_WRONLY | O_CREAT | O_APPEND, 0600)) {
        if (m_file < 0)
            throw std::runtime_error(path + ": cannot be opened");
    }
    explicit Lines(int file) : m_file(file) {}
    ~Lines() { ::close(m_file); }
    Lines(const Lines &) = delete;
    Lines &operator=(const Lines &) = delete;

    void put(const std::string &line) {
        const std::string text = line + "\n";
        if (::write(m_file, text.data(), text.size()) != static_cast<ssize_t>(text.size())) {
            std::cerr << "a line cannot be written" << std::endl;
            std::_Exit(3);
        }
    }

  private:
    int m_file;
};

// The bytes of messages that came, by session number, until the application sees them.
class Wire : public FIX::Log {
  public:
    void clear() override {}
    void backup() override {}
    void onOutgoing(const std::string &) override {}
    void onEvent(const std::string &text) override {
        if (std::getenv("PLAYER_EVENTS"))
            std::cerr << text << std::endl;
    }
    void onIncoming(const std::string &bytes) override {
        const std::size_t at = bytes.find("\00134=");
        if (at == std::string::npos)
            return;
        const std::lock_guard<std::mutex> lock(m_mutex);
        m_bytes[std::atoi(bytes.c_str() + at + 4)] = bytes;
        if (m_bytes.size() > MOST_MESSAGES)
            m_bytes.erase(m_bytes.begin());
    }
    // The bytes that came under this number last. A message that came ahead of others waits in the
    // engine, so the numbers are not asked for in their order.
    std::string take(int number) {
        const std::lock_guard<std::mutex> lock(m_mutex);
        const auto found = m_bytes.find(number);
        if (found == m_bytes.end())
            return std::string();
        const std::string bytes = found->second;
        m_bytes.erase(found);
        return bytes;
    }

  private:
    static const std::size_t MOST_MESSAGES = 10000; // those of the session itself among them
    std::mutex m_mutex;
    std::map<int, std::string> m_bytes;
};

class Wires : public FIX::LogFactory {
  public:
    explicit Wires(Wire &wire) : m_wire(wire) {}
    FIX::Log *create() override { return &m_wire; }
    FIX::Log *create(const FIX::SessionID &) override { return &m_wire; }
    void destroy(FIX::Log *) override {}

  private:
    Wire &m_wire;
};

class Player : public FIX::Application {
  public:
    Player(Wire &wire, const std::string &received, std::string username, std::string password)
        : m_wire(wire), m_received(received), m_out(STDOUT_FILENO), m_username(std::move(username)),
          m_password(std::move(password)) {}

    void onCreate(const FIX::SessionID &session) override { m_session = session; }
    void onLogon(const FIX::SessionID &) override { m_out.put("on"); }
    void onLogout(const FIX::SessionID &) override { m_out.put("off"); }
    void toApp(FIX::Message &, const FIX::SessionID &) noexcept override {}
    void toAdmin(FIX::Message &message, const FIX::SessionID &) override {
        if (field(message.getHeader(), 35) != "A")
            return;
        if (const char *venue = std::getenv("PLAYER_VENUE"))
            message.getHeader().setField(TARGET_SUB, venue);
        message.setField(USERNAME, m_username);
        message.setField(PASSWORD, m_password);
    }
    void fromAdmin(const FIX::Message &message, const FIX::SessionID &) noexcept override {
        const std::string type = field(message.getHeader(), 35);
        if (type == "3" && message.isSetField(VENUE_NUMBER))
            record(message);
        else if (type == "3" || type == "5")
            m_out.put("admin " + to_hex(bytes_of(message)));
    }
    void fromApp(const FIX::Message &message, const FIX::SessionID &) noexcept override {
        record(message);
    }

    void send(const std::string &name, const std::string &bytes) {
        try {
            const FIX::DataDictionaryProvider &dictionaries = session().getDataDictionaryProvider();
            FIX::Message message;
            message.setString(bytes, false,
                              &dictionaries.getSessionDataDictionary(FIX::BeginString("FIXT.1.1")),
                              &dictionaries.getApplicationDataDictionary(FIX::ApplVerID("9")));
            FIX::Session::sendToTarget(message, m_session);
            m_out.put("sent " + name + " " + field(message.getHeader(), 34));
        } catch (const std::exception &fault) {
            m_out.put("refused " + name + " " + fault.what());
        }
    }
    FIX::Session &session() const { return *FIX::Session::lookupSession(m_session); }

  private:
    std::string bytes_of(const FIX::Message &message) {
        const std::string bytes = m_wire.take(std::stoi(field(message.getHeader(), 34)));
        return bytes.empty() ? message.toString() : bytes;
    }
    void record(const FIX::Message &message) {
        const auto now = std::chrono::steady_clock::now().time_since_epoch();
        const auto moment = std::chrono::duration_cast<std::chrono::nanoseconds>(now).count();
        m_received.put(std::to_string(moment) + " " + to_hex(bytes_of(message)));
        m_out.put("got");
    }

    Wire &m_wire;
    Lines m_received, m_out;
    std::string m_username, m_password;
    FIX::SessionID m_session;
};

void obey(Player &player) {
    std::string line;
    while (std::getline(std::cin, line) && line != "quit") {
        std::istringstream words(line);
        std::string what, name, digits;
        words >> what >> name >> digits;
        if (what == "send")
            player.send(name, from_hex(digits));
        else if (what == "logoff")
            player.session().logout();
        else if (what == "logon")
            player.session().logon();
        else
            throw std::runtime_error("no such order: " + line);
    }
}

std::unique_ptr<FIX::Initiator> initiator(bool tls, Player &player,
                                          FIX::MessageStoreFactory &stores,
                                          const FIX::SessionSettings &settings,
                                          FIX::LogFactory &logs) {
    if (tls)
        return std::make_unique<FIX::ThreadedSSLSocketInitiator>(player, stores, settings, logs);
    return std::make_unique<FIX::SocketInitiator>(player, stores, settings, logs);
}

} // namespace

int main(int count, char **words) {
    if (count < 5) {
        std::cerr << "usage: player SETTINGS RECEIVED USERNAME PASSWORD [tls]" << std::endl;
        return 2;
    }
    try {
        Wire wire;
        Wires wires(wire);
        Player player(wire, words[2], words[3], words[4]);
        const FIX::SessionSettings settings(words[1]);
        FIX::FileStoreFactory stores(settings);
        const auto engine = initiator(count > 5, player, stores, settings, wires);
        engine->start();
        obey(player);
        engine->stop();
        return 0;
    } catch (const std::exception &fault) {
        std::cerr << fault.what() << std::endl;
        return 1;
    }
}
