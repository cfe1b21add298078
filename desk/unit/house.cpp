#include "house.h"

#include "common/web/secrets.h"
#include "trader_of.h"

#include <doctest/doctest.h>

#include <algorithm>
#include <chrono>
#include <fstream>
#include <thread>

#include <fcntl.h>
#include <unistd.h>

namespace desk_tests {

using namespace desk;
using nlohmann::json;

namespace {

constexpr std::chrono::seconds patience{60};
constexpr const char *hash = "$1$desk$SsESOLg5wnV47Kvq8nOCf."; // of `password`
constexpr unsigned short port = 8443;

Trader trader(const std::string &login, const std::string &name, bool may_act) {
    Trader one = trader_of(login, name);
    one.password = hash;
    one.may_act = may_act;
    return one;
}

Market market_of(Role role) {
    Market market;
    market.bonds = {{alder, "Alder 4.125 03/29", 256, {}},
                    {cedar, "Cedar 4.75 02/34", 32, {Price{80 * 256}, Price{120 * 256}}}};
    market.dealers = {"DLR1", "DLR2"};
    if (role == Role::dealer) {
        market.limits = {10'000'000, 4096, 0, 0, 0};
    } else {
        market.limits = {0, 0, 5'000'000, 1024, 8};
    }
    return market;
}

// A venue's day ends at midnight in UTC, and what is asked for a minute is refused behind that:
// where less than two minutes are left of this day, the next one is waited for.
void wait_for_room_of_day() {
    const auto end = std::chrono::floor<std::chrono::days>(now()) + std::chrono::days(1);
    const bool has_room = end - now() >= std::chrono::minutes(2);
    while (!has_room && now() < end) {
        std::this_thread::sleep_for(std::chrono::milliseconds(10));
    }
}

} // namespace

Config config_of(Role role, const std::string &data) {
    Config config;
    config.firm = role == Role::dealer ? "DLR1" : "INV1";
    config.role = role;
    config.market = market_of(role);
    config.data = data;
    config.banner = "A venue to try.";
    config.lock_after = std::chrono::minutes(30);
    config.fix.firm = config.firm;
    config.fix.username = "user";
    config.fix.password = "fix-password";
    config.fix.dictionaries = DICTIONARIES;
    config.traders = {trader("tess", "T1", true), trader("tom", "T4", true),
                      trader("lou", "T5", false), trader("ada", "T6", false)};
    config.traders[3].is_admin = true;
    config.traders[0].names = {"T1", "P1"};
    Program program{web::digest_of(program_token), config.traders[0]};
    program.acts_as.name = "P1";
    program.acts_as.is_program = true;
    config.programs = {program};
    return config;
}

Told::Told(const std::string &path) : path_(path), before_(::dup(STDERR_FILENO)) {
    const gateway::Descriptor file(
        ::open(path.c_str(), O_WRONLY | O_CREAT | O_APPEND | O_CLOEXEC, 0600));
    REQUIRE(::dup2(file.number(), STDERR_FILENO) == STDERR_FILENO);
}

Told::~Told() {
    ::dup2(before_, STDERR_FILENO);
    ::close(before_);
}

int Told::count(const std::string &words) const {
    std::ifstream file(path_);
    int found = 0;
    for (std::string line; std::getline(file, line);) {
        found += line.find(words) != std::string::npos;
    }
    return found;
}

void PlayedSocket::send(std::shared_ptr<const std::string> text) {
    messages.push_back(json::parse(*text));
}

std::vector<json> PlayedSocket::all(const std::string &type) const {
    std::vector<json> found;
    std::copy_if(messages.begin(), messages.end(), std::back_inserter(found),
                 [&](const json &one) { return one.at("t") == type; });
    return found;
}

House::House(Role role, const std::function<void(Config &)> &change)
    : config(config_of(role, folder.file("data"))), events(config.firm) {
    wait_for_room_of_day();
    std::filesystem::create_directory(config.data);
    config.fix.addresses = {{"127.0.0.1", venue.port()}};
    change(config);
    logins = std::make_unique<Logins>(io, config.traders, config.data + "/sessions.json",
                                      config.lock_after);
    own = std::make_unique<Desk>(io, config, events, 1);
    web::StaticFiles files;
    files.add("index.html", "<p>The page.</p>");
    site = std::make_unique<DeskSite>(config, *own, *logins, events, std::move(files));
    site->set_port(port);
}

// A session that is on would wait for the venue's Logout.
House::~House() {
    if (is_started) {
        lose();
        own->stop();
    }
}

void House::until(const std::function<bool()> &holds) {
    const auto end = std::chrono::steady_clock::now() + patience;
    while (!holds()) {
        io.run_one_for(std::chrono::seconds(1));
        venue.stay();
        REQUIRE(std::chrono::steady_clock::now() < end);
    }
}

void House::connect() {
    if (!std::exchange(is_started, true)) {
        own->start(*site);
    }
    venue.let_in();
    until([&] { return own->hello(config.traders[0]).at("session").at("on") == true; });
}

void House::lose() {
    venue.hang_up();
    until([&] { return own->hello(config.traders[0]).at("session").at("on") == false; });
}

web::Response House::post(const std::string &path, const json &body, const std::string &cookie,
                          const std::string &address) {
    web::Request request;
    request.method = web::Method::post;
    request.path = path;
    request.body = body.dump();
    request.content_type = "application/json; charset=utf-8";
    request.address = address;
    request.cookies["desk-" + config.firm + "-" + std::to_string(port)] = cookie;
    std::optional<web::Response> answer;
    site->answer(request, [&](web::Response one) { answer = std::move(one); });
    until([&] { return answer.has_value(); });
    return *answer;
}

std::pair<std::string, std::string> House::log_in(const std::string &login) {
    const web::Response answer = post("/login", {{"login", login}, {"password", password}});
    REQUIRE(answer.status == 200);
    const std::string &header = answer.headers.at(0).second;
    const std::size_t begin = header.find('=') + 1;
    return {header.substr(begin, header.find(';') - begin), json::parse(answer.body).at("token")};
}

Page House::enter(const std::string &cookie) {
    web::Request request;
    request.path = "/socket";
    request.cookies["desk-" + config.firm + "-" + std::to_string(port)] = cookie;
    Page page{site->take_socket(request)};
    if (page.user) {
        page.user->opened(page.socket);
    }
    return page;
}

Page House::open(const std::string &login) {
    const auto [cookie, token] = log_in(login);
    Page page = enter(cookie);
    page.say({{"token", token}});
    return page;
}

Page House::program(const std::string &token) {
    web::Request request;
    request.path = "/program";
    request.authorization = "Bearer " + token;
    request.address = "192.0.2.7";
    Page page{site->take_socket(request)};
    if (page.user) {
        page.user->opened(page.socket);
    }
    return page;
}

std::vector<json> House::ask(const Page &page, json question) {
    question["number"] = ++number;
    page.say(question);
    std::vector<json> parts;
    until([&] {
        parts.clear();
        for (const json &one : page.socket->messages) {
            if (one.contains("number") && one.at("number") == number) {
                parts.push_back(one);
            }
        }
        return !parts.empty() && parts.back().value("last", true);
    });
    return parts;
}

std::string House::act(const Page &page, json command) {
    const json said = ask(page, std::move(command)).back();
    CHECK(said.at("t") == "said");
    return said.at("why");
}

std::string House::act(const std::string &login, json command) {
    if (!pages.contains(login)) {
        pages[login] = open(login);
    }
    return act(pages[login], std::move(command));
}

void House::show(const std::string &id, const std::string &bond, const std::string &side) {
    const std::string until_text = fix_text(now() + std::chrono::minutes(10));
    venue.say("R", "131=" + id + "|146=1|55=[N/A]|48=" + bond + "|22=4|54=" + side +
                       "|38=2000000|126=" + until_text + "|453=1|448=INV1|447=D|452=13|");
    until([&] { return request(id).is_object(); });
}

json House::request(const std::string &id) {
    for (const json &part : own->requests()) {
        for (const json &one : part.at("requests")) {
            if (one.at("id") == id) {
                return one;
            }
        }
    }
    return {};
}

} // namespace desk_tests
