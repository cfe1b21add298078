// mireseason-desk CONFIG: runs one firm's desk, serves the pages of its traders, and prints their
// address.
#include "built_in_pages.h"
#include "common/web/server.h"
#include "config.h"
#include "desk.h"
#include "desk_site.h"
#include "events.h"
#include "folder_lock.h"
#include "logins.h"

#include "common/password.h"
#include "common/version.h"

#include <charconv>
#include <csignal>
#include <cstring>
#include <exception>
#include <functional>
#include <iostream>
#include <string>

#include <boost/asio/io_context.hpp>
#include <boost/asio/signal_set.hpp>
#include <boost/asio/steady_timer.hpp>
#include <sys/stat.h>

namespace {

constexpr const char *usage =
    "usage: mireseason-desk CONFIG                  serves the desk until SIGTERM or SIGINT\n"
    "       mireseason-desk --check CONFIG          reads CONFIG and what it names, and ends\n"
    "       mireseason-desk --next-number N CONFIG  goes on with session number N after the loss\n"
    "                                               of the journal\n"
    "       mireseason-desk --hash                  reads a password, and prints its hash\n"
    "       mireseason-desk --version               prints its version and commit\n";

struct Arguments {
    std::string config;
    int next_number = 1;
    bool only_checks = false;
};

bool read(int count, char **words, Arguments &arguments) {
    if (count == 3 && std::strcmp(words[1], "--check") == 0) {
        arguments.only_checks = true;
    } else if (count == 4 && std::strcmp(words[1], "--next-number") == 0) {
        const char *end = words[2] + std::strlen(words[2]);
        const auto [stopped, fault] = std::from_chars(words[2], end, arguments.next_number);
        if (fault != std::errc() || stopped != end || arguments.next_number < 1) {
            return false;
        }
    } else if (count != 2 || words[1][0] == '-') {
        return false;
    }
    arguments.config = words[count - 1];
    return true;
}

int print_hash() {
    std::string password;
    if (!std::getline(std::cin, password)) {
        std::cerr << "no password on standard input\n";
        return 2;
    }
    std::cout << gateway::new_hash(password) << '\n';
    return 0;
}

web::StaticFiles files_of(const desk::Config &config) {
    if (!config.pages) {
        return desk::built_in_pages();
    }
    web::StaticFiles files;
    files.add_folder(*config.pages);
    return files;
}

void run(const desk::Config &config, int next_number) {
    const desk::FolderLock lock(config.data);
    desk::Events events(config.firm);
    boost::asio::io_context io(1);
    desk::Logins logins(io, config.traders, config.data + "/sessions.json", config.lock_after);
    desk::Desk desk(io, config, events, next_number);
    desk::DeskSite site(config, desk, logins, events, files_of(config));
    web::Server server(io, config.server, site);
    site.set_port(server.port());

    boost::asio::signal_set signals(io, SIGINT, SIGTERM);
    signals.async_wait([&](auto, int) { io.stop(); });
    boost::asio::steady_timer timer(io);
    const std::function<void()> tick = [&] {
        site.tick();
        timer.expires_after(std::chrono::seconds(1));
        timer.async_wait([&](const boost::system::error_code &fault) {
            if (!fault) {
                tick();
            }
        });
    };
    desk.start(site);
    tick();
    std::cout << server.address() << std::endl;
    io.run();
    desk.stop();
}

} // namespace

int main(int count, char **words) {
    if (count == 2 && std::strcmp(words[1], "--hash") == 0) {
        return print_hash();
    }
    if (count == 2 && std::strcmp(words[1], "--version") == 0) {
        std::cout << gateway::version_text() << '\n';
        return 0;
    }
    Arguments arguments;
    if (!read(count, words, arguments)) {
        std::cerr << usage;
        return 2;
    }
    try {
        ::umask(S_IRWXG | S_IRWXO); // the journal is the firm's alone
        const desk::Config config = desk::read_config(arguments.config);
        if (!arguments.only_checks) {
            run(config, arguments.next_number);
        }
        return 0;
    } catch (const std::exception &fault) {
        std::cerr << "mireseason-desk: " << fault.what() << '\n';
        return 1;
    }
}
