// mireseason-admin: passes an operator's command to the gateway, and prints the answer.
#include "common/descriptor.h"
#include "operator/admin_report.h"
#include "operator/admin_words.h"

#include <algorithm>
#include <array>
#include <cerrno>
#include <cstdlib>
#include <cstring>
#include <iostream>
#include <optional>
#include <stdexcept>
#include <string>
#include <vector>

#include <sys/socket.h>
#include <sys/time.h>
#include <sys/un.h>

namespace {

constexpr const char *help = R"(NAME
    mireseason-admin - says an operator's command to a gateway of Mireseason

SYNOPSIS
    mireseason-admin [--socket PATH] [--json] COMMAND [WORD ..] [--because TEXT]

DESCRIPTION
    The gateway of this host is asked through its operator's socket. Who calls is known by the user
    that runs this program: root, the gateway's own user, and the members of the group that the
    gateway's configuration names may. What changes something is an act: before it takes effect it
    stands in the log of the day, with the user, the moment and the reason, and the log's chain and
    seals cover it. An act holds for the day, also after a restart and on another gateway.

COMMANDS
    status
        What a restart now would do; and what the gateway does, for each venue: whether it is open,
        its date, entries in the log, and up to which of them it is signed outside of its database,
        firms that are logged on, whether requests and quotes are taken, the log's disk and its
        reserve, days without copy or seal, and the machine's clock.

    backup
        A copy of the open day as it is now, as a stream for tar on standard output: the log, what
        stands beside it, and its last checkpoint. For root and the gateway's user.
        mireseason-restore puts it back.

    firms
        Each firm: when it logged on and from where, its messages, the bytes of its lines in the
        log, how many it may have, and what an operator has set for it.

    firm FIRM
        One firm: when it logged on and from where, what it sent and was refused, the bytes that
        wait for it, all its limits, and how much of its day's bytes is used.

    hand-out FIRM [--venue NAME]
        What this firm may know of the venue: the bonds, the dealers' names, and its own limits. A
        desk of the firm reads the file, which is of one venue: of several NAME says which.

    next-day
        Which trading day opens next and when, what is at fault in the files for it, and which firms
        are new or gone.

    admit FIRM REPORT
        REPORT is what mireseason-certify --key has written of the firm's desk. The gateway checks
        who signed it, that every case has passed, until when it holds and of which formats it is.
        The act holds for this day; for the days to come, and for a gateway whose day has not begun,
        the report's hash and signature go into the file of credentials, which is root's.

    suspend FIRM --because TEXT
        Logs a firm out and refuses it until `resume`. A dealer's quotes are cancelled, an
        investor's open requests passed, in the same transaction as the act.

    resume FIRM
        Lets a suspended firm log on again.

    halt [--bond ID] --because TEXT
        Takes no request, quote or hit, of one bond or of any. Each is answered with the reason.
        Cancels, declines and passes are taken as before.

    resume [--bond ID]
        Ends a halt.

    cancel FIRM [--trader TRADER] --because TEXT
        Cancels all quotes of a dealer, or each one that this trader sent. The dealer is told as
        of a cancel of its own.

    end-day [--now]
        Takes no new request, and ends the day once none is open. With --now it ends at once, and
        the answer names the requests that get no notice. The next day opens as it is configured.

    reset-session FIRM [--venue NAME]
        For a firm whose engine lost its store: its numbers begin at 1 again, its next Logon has
        34=1, and what it is not known to have comes again under new numbers, marked as a copy.
        Of a firm with a session at several venues NAME says which one's.

    release FIRM [--venue NAME]
        Lets a firm whose Logons are refused for its numbers try again with them as they are.

    bust TRADE [--venue NAME] --because TEXT
        Voids a trade of this day by agreement of its two firms. TRADE is its name, which both have
        in TradeID (1003). The record of the day says so; no firm is sent anything. Where several
        venues have a trade of this name, NAME says whose it is.

    limit FIRM
        All limits of a firm.

    limit FIRM KEY=VALUE
        Sets one of them for this day: day_bytes, messages_per_second, messages_burst,
        bytes_per_second, bytes_burst, resends_per_second or resends_burst. VALUE is a number, or
        the word configured, which takes back what was set.

    clock accept
        Requests and quotes are taken again after the machine's clock was set by more than two
        seconds. Look at the clock first.

    reload
        Reads credentials and certificates again. Only sessions whose own are gone end.

    log accept-loss [--halt] --because TEXT
        Where the gateway has found that the end of its log is lost, and waits: takes the log as it
        is, and opens the day; with --halt it opens halted, until resume. What was lost stays lost.
        Putting the log back is better.

    help
        The commands of the gateway that is asked.

OPTIONS
    --because TEXT  why: it stands in the log with the act. The act's line has 200 bytes at most.
    --json          prints the answer as JSON, in one line.
    --credentials FILE
                    where `admit` keeps a report (/etc/mireseason/credentials.toml).
    --socket PATH   where the socket is (/run/mireseason/admin.sock, or what the variable
                    MIRESEASON_ADMIN_SOCKET says).
    --help          prints this.

EXIT STATUS
    0   done
    1   the gateway says why not
    2   wrong words on the command line
    3   no gateway answers at the socket, or you may not use it

EXAMPLES
    mireseason-admin firms
    mireseason-admin --json firm DLR1
    mireseason-admin admit DLR1 certified-DLR1.json
    mireseason-admin limit DLR1 day_bytes=2147483648 --because "agreed with their desk"
    mireseason-admin --json status
    mireseason-admin backup > /srv/backup/now.tar
)";

class NoGateway : public std::runtime_error {
  public:
    using std::runtime_error::runtime_error;
};

struct Words {
    std::string socket = gateway::usual_socket;
    std::string credentials = "/etc/mireseason/credentials.toml";
    gateway::AdminRequest request;
};

// The socket's mode lets only some use it, whether a gateway is there or not.
class NotAllowed : public std::runtime_error {
  public:
    using std::runtime_error::runtime_error;
};

gateway::Descriptor connected_to(const std::string &path) {
    sockaddr_un address{};
    address.sun_family = AF_UNIX;
    if (path.size() >= sizeof address.sun_path) {
        throw NoGateway("the socket's path is too long");
    }
    path.copy(address.sun_path, path.size());
    gateway::Descriptor connection(::socket(AF_UNIX, SOCK_STREAM | SOCK_CLOEXEC, 0));
    const timeval longest{20, 0};
    ::setsockopt(connection.number(), SOL_SOCKET, SO_RCVTIMEO, &longest, sizeof longest);
    ::setsockopt(connection.number(), SOL_SOCKET, SO_SNDTIMEO, &longest, sizeof longest);
    if (::connect(connection.number(), reinterpret_cast<const sockaddr *>(&address),
                  sizeof address) != 0) {
        if (errno == EACCES) {
            throw NotAllowed("you may not use " + path +
                             ": it is for root, the gateway's user and " + "its operators' group");
        }
        throw NoGateway(std::strerror(errno));
    }
    return connection;
}

// What can't be written any more was not wanted: the answer says why.
void send_line(const gateway::Descriptor &connection, std::string_view line) {
    while (!line.empty()) {
        const ssize_t count = ::send(connection.number(), line.data(), line.size(), MSG_NOSIGNAL);
        if (count < 0) {
            break;
        }
        line.remove_prefix(static_cast<std::size_t>(count));
    }
}

// Puts what comes next behind the text; false where nothing comes any more.
bool read_more(const gateway::Descriptor &connection, std::string &text) {
    std::array<char, 65536> bytes{};
    const ssize_t count = ::recv(connection.number(), bytes.data(), bytes.size(), 0);
    if (count < 0 && text.empty()) {
        throw NoGateway(std::strerror(errno));
    }
    if (count > 0) {
        text.append(bytes.data(), static_cast<std::size_t>(count));
    }
    return count > 0;
}

// The stream did not come whole.
class NotWhole : public std::runtime_error {
  public:
    using std::runtime_error::runtime_error;
};

// Puts the pieces of a stream to standard output, up to the one without bytes. `text` has what came
// of them. Throws NotWhole.
void pass_on(const gateway::Descriptor &connection, std::string text) {
    for (;;) {
        while (text.size() < gateway::digits_of_length) {
            if (!read_more(connection, text)) {
                throw NotWhole("the gateway ended it");
            }
        }
        if (text.starts_with(gateway::piece_is_fault)) {
            while (read_more(connection, text)) {
            }
            throw NotWhole(text.substr(gateway::digits_of_length));
        }
        const std::size_t size = std::stoul(text.substr(0, gateway::digits_of_length), nullptr, 16);
        text.erase(0, gateway::digits_of_length);
        if (size == 0) {
            return;
        }
        if (size > gateway::longest_piece) {
            throw NotWhole("what answers there is no gateway");
        }
        while (text.size() < size) {
            if (!read_more(connection, text)) {
                throw NotWhole("the gateway ended it");
            }
        }
        if (!std::cout.write(text.data(), static_cast<std::streamsize>(size))) {
            throw NotWhole("standard output takes no more");
        }
        text.erase(0, size);
    }
}

int take_stream(const gateway::Descriptor &connection, std::string text) {
    try {
        pass_on(connection, std::move(text));
        if (!std::cout.flush()) {
            throw NotWhole("standard output takes no more");
        }
        return 0;
    } catch (const std::exception &fault) {
        std::cerr << "mireseason-admin: what was written is not whole: " << fault.what() << '\n';
        return 1;
    }
}

// Nothing where they are wrong.
std::optional<Words> words_of(const std::vector<std::string> &arguments) {
    Words words;
    if (const char *path = std::getenv("MIRESEASON_ADMIN_SOCKET")) {
        words.socket = path;
    }
    bool is_reason = false;
    for (std::size_t at = 0; at < arguments.size(); ++at) {
        const std::string &word = arguments[at];
        if (!is_reason && word == "--json") {
            words.request.wants_json = true;
        } else if (!is_reason && (word == "--socket" || word == "--credentials")) {
            if (++at == arguments.size()) {
                return std::nullopt;
            }
            (word == "--socket" ? words.socket : words.credentials) = arguments[at];
        } else {
            is_reason = !is_reason && word == "--because";
            words.request.words.push_back(word);
        }
    }
    return words.request.words.empty() || is_reason ? std::nullopt : std::optional(words);
}

int ask(const Words &words) {
    const std::string line = line_of(words.request);
    if (line.size() > gateway::longest_request) {
        std::cerr << "mireseason-admin: these words are too long\n";
        return 2;
    }
    const gateway::Descriptor connection = connected_to(words.socket);
    send_line(connection, line);
    std::string answer;
    while (read_more(connection, answer)) {
        if (answer.starts_with(gateway::answer_is_stream)) {
            return take_stream(connection, answer.substr(gateway::answer_is_stream.size()));
        }
    }
    if (answer.starts_with(gateway::answer_is_good)) {
        std::cout << answer.substr(gateway::answer_is_good.size());
        return 0;
    }
    if (!answer.starts_with(gateway::answer_is_error)) {
        throw NoGateway("what answers there is no gateway, or it ended");
    }
    const std::string what = answer.substr(gateway::answer_is_error.size());
    (words.request.wants_json && what.starts_with('{') ? std::cout
                                                       : std::cerr << "mireseason-admin: ")
        << what;
    return 1;
}

// `admit FIRM REPORT`: the gateway is given the line that signs the report, and what it has
// admitted is kept for the days to come.
int admit(Words words) {
    std::vector<std::string> &said = words.request.words;
    try {
        said[2] = gateway::line_that_signs(said[2]);
    } catch (const std::runtime_error &fault) {
        std::cerr << "mireseason-admin: " << fault.what() << '\n';
        return 1;
    }
    const int status = ask(words);
    if (status == 0 && !gateway::keep_report(words.credentials, said[1], said[2])) {
        std::cerr << "mireseason-admin: " << said[1]
                  << " is admitted for this day alone: " << words.credentials
                  << " stays as it was. Call this again as root\n";
        return 1;
    }
    return status;
}

} // namespace

int main(int count, char **arguments) {
    const std::vector<std::string> given(arguments + 1, arguments + count);
    if (std::find(given.begin(), given.end(), "--help") != given.end()) {
        std::cout << help;
        return 0;
    }
    const auto words = words_of(given);
    if (!words) {
        std::cerr << "usage: mireseason-admin [--socket PATH] [--json] COMMAND [WORD ..] "
                     "[--because TEXT]\n       mireseason-admin --help\n";
        return 2;
    }
    try {
        const std::vector<std::string> &said = words->request.words;
        return said.size() > 2 && said[0] == "admit" ? admit(*words) : ask(*words);
    } catch (const NotAllowed &fault) {
        std::cerr << "mireseason-admin: " << fault.what() << '\n';
        return 3;
    } catch (const NoGateway &fault) {
        std::cerr << "mireseason-admin: no gateway answers at " << words->socket << ": "
                  << fault.what() << '\n';
        return 3;
    }
}
