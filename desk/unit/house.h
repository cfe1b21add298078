// A desk as a whole, in one process with the test: its site without a server, and a venue that the
// test plays.
#ifndef DESK_TESTS_HOUSE_H
#define DESK_TESTS_HOUSE_H

#include "desk_site.h"
#include "played_venue.h"
#include "unit.h"

#include <functional>
#include <map>
#include <memory>
#include <optional>
#include <string>
#include <string_view>
#include <vector>

#include <boost/asio/executor_work_guard.hpp>
#include <boost/asio/io_context.hpp>
#include <nlohmann/json.hpp>

namespace desk_tests {

constexpr const char *alder = "BONDA0000001"; // on a grid of 256
constexpr const char *cedar = "BONDC0000003"; // on a grid of 32, from 80 to 120
constexpr const char *password = "secret";    // of each trader
constexpr const char *program_token = "a token of thirty-two characters";

// Tess and tom act, lou looks only, and ada is the admin and looks only. P1 is tess's program.
desk::Config config_of(desk::Role role, const std::string &data);

// What is written to standard error meanwhile.
class Told {
  public:
    explicit Told(const std::string &path);
    ~Told();
    Told(const Told &) = delete;
    Told &operator=(const Told &) = delete;
    // Its lines with these words.
    int count(const std::string &words) const;

  private:
    const std::string path_;
    const int before_;
};

// The page's end of a WebSocket.
class PlayedSocket final : public web::Socket {
  public:
    void send(std::shared_ptr<const std::string> text) override;
    void close(web::CloseCode code) override { closed = code; }
    // Those of a type, in their order.
    std::vector<nlohmann::json> all(const std::string &type) const;

    std::vector<nlohmann::json> messages;
    std::optional<web::CloseCode> closed;
};

struct Page {
    std::shared_ptr<web::SocketUser> user;
    std::shared_ptr<PlayedSocket> socket = std::make_shared<PlayedSocket>();

    bool is_open() const { return !socket->closed; }
    void say(const nlohmann::json &message) const { user->heard(message.dump()); }
    // The last message of a type.
    nlohmann::json last(const std::string &type) const { return socket->all(type).back(); }
};

struct House {
    explicit House(
        desk::Role role, const std::function<void(desk::Config &)> &change = [](desk::Config &) {});
    ~House();

    // Has the desk do what it has to, until that holds.
    void until(const std::function<bool()> &holds);
    // Starts the desk, if it has not begun, and lets it in at the venue.
    void connect();
    // The venue hangs up.
    void lose();
    web::Response post(const std::string &path, const nlohmann::json &body,
                       const std::string &cookie = "", const std::string &address = "192.0.2.1");
    // The cookie and the token of a login.
    std::pair<std::string, std::string> log_in(const std::string &login);
    // A page that has not shown its token.
    Page enter(const std::string &cookie);
    Page open(const std::string &login);
    Page program(const std::string &token = program_token);
    // Why the desk did not do it; empty where it did.
    std::string act(const Page &page, nlohmann::json command);
    // By a page of this login, of which the house has one.
    std::string act(const std::string &login, nlohmann::json command);
    // The parts of an answer, or the `said` in its place.
    std::vector<nlohmann::json> ask(const Page &page, nlohmann::json question);
    // A dealer is shown a request of two millions, for ten minutes; an investor's is taken.
    void show(const std::string &id, const std::string &bond = alder,
              const std::string &side = "1");
    // The page's last view of a request, with what changed of it.
    nlohmann::json request(const std::string &id);

    Folder folder;
    Told told{folder.file("told")};
    PlayedVenue venue;
    boost::asio::io_context io{1};
    boost::asio::executor_work_guard<boost::asio::io_context::executor_type> work{
        io.get_executor()};
    desk::Config config;
    desk::Events events;
    std::unique_ptr<desk::Logins> logins;
    std::unique_ptr<desk::Desk> own;
    std::unique_ptr<desk::DeskSite> site;
    bool is_started = false;
    std::uint64_t number = 0; // of the last command
    std::map<std::string, Page> pages;
};

} // namespace desk_tests

#endif
