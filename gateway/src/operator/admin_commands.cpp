#include "operator/admin_command.h"

#include "base/nearest_word.h"
#include "base/printable.h"
#include "operator/admin_words.h"

#include <algorithm>

#include <fmt/format.h>

namespace gateway {

namespace {

constexpr std::string_view reason = "--because";

std::string usage_of(const AdminCommand &command) {
    return fmt::format("{}{}{}", command.name, command.words.empty() ? "" : " ", command.words);
}

AdminAnswer run_help(AdminCall &call) {
    check_words(call, 0, 0);
    AdminAnswer answer;
    for (const AdminCommand &command : admin_commands()) {
        answer.rows.push_back(
            {{"command", usage_of(command)}, {"what", std::string(command.what)}});
    }
    return answer;
}

// Without a byte that anybody sees; what is not ASCII may be a letter.
bool is_blank(std::string_view text) {
    return std::all_of(text.begin(), text.end(),
                       [](unsigned char c) { return c <= ' ' || c == 0x7f; });
}

// Takes `--because TEXT` out of the words.
std::string take_reason(std::vector<std::string> &words) {
    const auto found = std::find(words.begin(), words.end(), reason);
    if (found == words.end()) {
        return "";
    }
    if (found + 1 == words.end() || is_blank(*(found + 1))) {
        throw AdminFault("--because needs a reason after it");
    }
    std::string text = *(found + 1);
    words.erase(found, found + 2);
    return text;
}

[[noreturn]] void fail_unknown(const std::string &name) {
    std::vector<std::string_view> names;
    for (const AdminCommand &command : admin_commands()) {
        names.push_back(command.name);
    }
    const auto nearest = nearest_word(name, names);
    throw AdminFault(fmt::format("there is no command `{}`{}: `help` lists them",
                                 printable(name, 40),
                                 nearest ? fmt::format("; `{}`?", *nearest) : ""));
}

// Null where there is none of the name.
const AdminCommand *command_named(const std::string &name) {
    const std::vector<AdminCommand> &all = admin_commands();
    const auto found = std::find_if(
        all.begin(), all.end(), [&](const AdminCommand &command) { return command.name == name; });
    return found == all.end() ? nullptr : &*found;
}

// By its name of one word or of two, which are taken out of the words.
const AdminCommand &take_command(std::vector<std::string> &words) {
    std::string name;
    for (std::size_t taken = 1; taken <= 2 && taken <= words.size(); ++taken) {
        name = taken == 1 ? words[0] : words[0] + " " + words[1];
        if (const AdminCommand *const command = command_named(name)) {
            words.erase(words.begin(), words.begin() + static_cast<std::ptrdiff_t>(taken));
            return *command;
        }
    }
    fail_unknown(name);
}

AdminAnswer run(AdminScene &scene, const std::string &who, const AdminRequest &request) {
    AdminCall call{scene, who, request.words, {}};
    call.because = take_reason(call.words);
    const AdminCommand &command = take_command(call.words);
    try {
        return command.run(call);
    } catch (const WrongWords &) {
        throw AdminFault(fmt::format("usage: {}", usage_of(command)));
    }
}

} // namespace

const std::vector<AdminCommand> &admin_commands() {
    static const std::vector<AdminCommand> commands = {
        {"status", "", "says what the gateway does", run_status},
        {"backup", "", "writes a copy of the open day to standard output, for root; tar reads it",
         run_backup},
        {"firms", "", "lists the firms: who is there, what they sent, their limits", run_firms},
        {"firm", "FIRM", "shows one firm: since when it is there, its counts, its limits",
         run_firm},
        {"hand-out", "FIRM [--venue NAME]",
         "prints what the firm may know of the venue, as a desk reads it", run_hand_out},
        {"next-day", "", "says which day opens next and what its configuration says", run_next_day},
        {"end-day", "[--now] [--because TEXT]",
         "takes no new request, and ends the day once none is open; --now: at once, without "
         "notices",
         run_end_day},
        {"admit", "FIRM REPORT [--because TEXT]",
         "lets a firm log on whose desk was certified, if [fix] certified asks for that",
         run_admit},
        {"suspend", "FIRM --because TEXT",
         "logs a firm out, refuses it, and cancels its quotes or passes its requests", run_suspend},
        {"resume", "[FIRM | --bond ID] [--because TEXT]",
         "lets a suspended firm log on again; or ends a halt, of the venue or of a bond",
         run_resume},
        {"halt", "[--bond ID] --because TEXT",
         "refuses requests, quotes and hits, of one bond or of all", run_halt},
        {"cancel", "FIRM [--trader TRADER] --because TEXT",
         "cancels all quotes of a dealer, or those that one trader sent", run_cancel},
        {"reset-session", "FIRM [--venue NAME] [--because TEXT]",
         "has a firm's numbers begin at 1 again, after its engine lost its store",
         run_reset_session},
        {"release", "FIRM [--venue NAME] [--because TEXT]",
         "lets a firm whose engine lost its store try again with its numbers as they are",
         run_release},
        {"bust", "TRADE [--venue NAME] --because TEXT",
         "voids a trade by agreement; no firm is sent anything", run_bust},
        {"limit", "FIRM [KEY=VALUE] [--because TEXT]",
         "shows a firm's limits, or sets one for the day; VALUE may be `configured`", run_limit},
        {"clock accept", "[--because TEXT]",
         "takes requests and quotes again after the clock was set", run_clock_accept},
        {"reload", "[--because TEXT]", "reads credentials and certificates again", run_reload},
        {"log accept-loss", "[--halt] --because TEXT",
         "accepts a log whose end was lost, and opens the day; with --halt it opens halted",
         run_log_accept_loss},
        {"help", "", "lists the commands", run_help},
    };
    return commands;
}

std::string answer_to(AdminScene &scene, const std::string &who, std::string_view line) {
    const auto request = request_of(line);
    if (!request) {
        return fmt::format("{}this is no request of mireseason-admin\n", answer_is_error);
    }
    try {
        const AdminAnswer answer = run(scene, who, *request);
        return std::string(answer_is_good) +
               (request->wants_json ? json_of(answer) : text_of(answer));
    } catch (const std::runtime_error &fault) {
        return std::string(answer_is_error) + (request->wants_json
                                                   ? json_of_error(fault.what())
                                                   : fault.what() + std::string("\n"));
    }
}

void check_words(const AdminCall &call, std::size_t least, std::size_t most) {
    if (call.words.size() < least || call.words.size() > most) {
        throw WrongWords();
    }
}

std::string take_venue(AdminCall &call) {
    const auto found = std::find(call.words.begin(), call.words.end(), "--venue");
    if (found == call.words.end()) {
        return "";
    }
    if (found + 1 == call.words.end() || (found + 1)->empty()) {
        throw AdminFault("--venue needs a name after it");
    }
    std::string name = *(found + 1);
    call.words.erase(found, found + 2);
    return name;
}

std::string venues_of(const std::vector<Leader *> &leaders) {
    std::string names;
    for (Leader *leader : leaders) {
        names += (names.empty() ? "" : ", ") + leader->day().config.venue;
    }
    return names;
}

void check_reason(const AdminCall &call, std::string_view example) {
    if (call.because.empty()) {
        throw AdminFault(fmt::format("say why: --because \"{}\"", example));
    }
}

OpenDay::OpenDay(AdminScene &scene) : held_(scene.hold_day()) {
    if (held_.gateway == nullptr) {
        throw AdminFault(fmt::format("no day is open: {}", scene.waits_for()));
    }
    open_ = held_.gateway->keep();
    if (!held_.gateway->is_open()) {
        throw AdminFault("this gateway does not speak: it follows another one, begins or ends; ask "
                         "the one that does");
    }
}

std::vector<Leader *> OpenDay::leaders() {
    std::vector<Leader *> all;
    for (const auto &leader : gateway().leaders()) {
        all.push_back(leader.get());
    }
    return all;
}

std::vector<Leader *> OpenDay::leaders_of(const std::string &firm, const std::string &venue) {
    std::vector<Leader *> all = leaders();
    std::erase_if(all, [&](Leader *each) {
        const bool is_meant = venue.empty() || each->day().config.venue == venue;
        return !is_meant || !each->sessions().has_firm(firm);
    });
    if (all.empty()) {
        throw AdminFault(fmt::format("the venue{} has no firm {}: `firms` lists them",
                                     venue.empty() ? "" : " " + venue, firm));
    }
    return all;
}

namespace {

void check_committed(bool is_committed) {
    if (!is_committed) {
        throw AdminFault(fmt::format("the log has not committed this act within {} s: whether it "
                                     "stands is not known until it has. What it forbids is refused "
                                     "from now on",
                                     longest_act.count()));
    }
}

} // namespace

void OpenDay::commit(Leader &leader, const Act &act) {
    check_committed(leader.commit_act(act, longest_act));
}

void OpenDay::commit_with_end(Leader &leader, const FirmEnd &end, const Act &act) {
    check_committed(leader.commit_act_with_end(end, act, longest_act));
}

} // namespace gateway
