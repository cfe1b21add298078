// An operator's command: its name, and what it does.
#ifndef GATEWAY_OPERATOR_ADMIN_COMMAND_H
#define GATEWAY_OPERATOR_ADMIN_COMMAND_H

#include "day/gateway.h"
#include "log/notes.h"
#include "operator/admin_answer.h"

#include <chrono>
#include <cstdint>
#include <optional>
#include <shared_mutex>
#include <string>
#include <string_view>
#include <vector>

namespace gateway {

// What commands see and act on: the gateway over its days. Any thread may call it.
class AdminScene {
  public:
    virtual ~AdminScene() = default;

    // The gateway of the day that goes on, which stays as long as the lock is kept; null where
    // there is none.
    struct HeldDay {
        std::shared_lock<std::shared_mutex> lock;
        Gateway *gateway = nullptr;
    };
    virtual HeldDay hold_day() = 0;
    // What it waits for where no day goes on: in a few words.
    virtual std::string waits_for() = 0;
    // Commits the acts into each log that waits to be accepted, and accepts it. Returns what was
    // given up. Throws AdminFault where none waits, and std::runtime_error.
    virtual std::string accept_loss(const std::vector<Act> &acts) = 0;

    // The trading day that opens next, and what it opens with.
    struct NextDay {
        std::string date;  // eight digits
        std::string opens; // in UTC
        std::string ends;
        std::vector<Config> configs;     // one of each venue
        std::vector<std::string> faults; // of the files as they stand: it opens without them
    };
    // Throws AdminFault where there is none.
    virtual NextDay next_day() = 0;

    // What lies beside the day that goes on.
    struct Beside {
        std::uint64_t days_without_copy = 0; // of those that have ended, where they are copied
        // Of the copies, where a keeper says what it sealed; nothing where their disk does not
        // answer.
        std::optional<std::uint64_t> days_without_seal = 0;
        std::vector<std::string> restart; // what a start now would do
        bool restart_goes_well = false;
    };
    virtual Beside beside() = 0;
};

// Who calls it, and with which words.
struct AdminCall {
    AdminScene &scene;
    std::string who;                // NAME(UID)
    std::vector<std::string> words; // behind the command's name
    std::string because;            // of --because

    Act act(const std::string &what) const { return {who, what, because}; }
};

// Each has a file of its own, admin_NAME.cpp, and a line in admin_commands.cpp. A command that
// changes something commits its act first. It throws AdminFault where it is not done.
struct AdminCommand {
    std::string_view name;  // one word, or two with a space
    std::string_view words; // of its usage, behind the name
    std::string_view what;  // for the help, a line
    AdminAnswer (*run)(AdminCall &call);
};

AdminAnswer run_status(AdminCall &call);
AdminAnswer run_backup(AdminCall &call); // an answer of text: its stream is admin_stream.h's
AdminAnswer run_firms(AdminCall &call);
AdminAnswer run_firm(AdminCall &call);
AdminAnswer run_hand_out(AdminCall &call);
AdminAnswer run_next_day(AdminCall &call);
AdminAnswer run_end_day(AdminCall &call);
AdminAnswer run_admit(AdminCall &call);
AdminAnswer run_bust(AdminCall &call);
AdminAnswer run_suspend(AdminCall &call);
AdminAnswer run_resume(AdminCall &call);
AdminAnswer resume_firm(AdminCall &call); // `resume FIRM`
AdminAnswer run_halt(AdminCall &call);
AdminAnswer run_cancel(AdminCall &call);
AdminAnswer run_reset_session(AdminCall &call);
AdminAnswer run_release(AdminCall &call);
AdminAnswer run_limit(AdminCall &call);
AdminAnswer run_clock_accept(AdminCall &call);
AdminAnswer run_reload(AdminCall &call);
AdminAnswer run_log_accept_loss(AdminCall &call);

// All of them.
const std::vector<AdminCommand> &admin_commands();

// The answer to a request's line, without its line feed: its first line is answer_is_good or
// answer_is_error (admin_words.h). Throws nothing that is a fault of the request.
std::string answer_to(AdminScene &scene, const std::string &who, std::string_view line);

// How long a command waits for the log, or for the gateway, before it says that it did.
constexpr auto longest_act = std::chrono::seconds(5);

// The day that goes on, of a gateway that speaks. It stays open as long as this is kept.
class OpenDay {
  public:
    // Throws AdminFault where there is none.
    explicit OpenDay(AdminScene &scene);

    Gateway &gateway() { return *held_.gateway; }
    // Those that have the firm, or the one of this name where a venue is named. Throws AdminFault
    // where there is none.
    std::vector<Leader *> leaders_of(const std::string &firm, const std::string &venue = "");
    std::vector<Leader *> leaders();
    // Commits the act into this venue's log, at which it takes effect. Throws AdminFault.
    static void commit(Leader &leader, const Act &act);
    // The same with what ends that the firm has open, in the same transaction.
    static void commit_with_end(Leader &leader, const FirmEnd &end, const Act &act);

  private:
    AdminScene::HeldDay held_;
    std::shared_lock<std::shared_mutex> open_;
};

// Words that the command's usage does not have.
class WrongWords : public AdminFault {
  public:
    WrongWords() : AdminFault("these are not its words") {}
};

// Throws WrongWords where there are more words, or fewer.
void check_words(const AdminCall &call, std::size_t least, std::size_t most);

// Takes `--venue NAME` out of the words: empty where no venue is named. Throws AdminFault.
std::string take_venue(AdminCall &call);

// The names of their venues, with commas between.
std::string venues_of(const std::vector<Leader *> &leaders);

// Throws AdminFault where no reason is given; the example is one.
void check_reason(const AdminCall &call, std::string_view example);

} // namespace gateway

#endif
