// Knows the firm's own programs by their tokens, and which of them a trader has stopped.
#ifndef DESK_PROGRAMS_H
#define DESK_PROGRAMS_H

#include "config.h"
#include "moment.h"

#include <functional>
#include <map>
#include <set>
#include <string>
#include <vector>

#include <nlohmann/json_fwd.hpp>

namespace desk {

class Programs {
  public:
    // A program that was stopped stays so over a restart, by the file. Throws std::runtime_error
    // where there is a file that can't be read.
    Programs(std::vector<Program> programs, std::string path);

    // Null where no program has this token, or name.
    const Program *with_token(const std::string &token) const;
    const Program *named(const std::string &name) const;

    bool is_stopped(const std::string &name) const { return stops_.contains(name); }
    void stop(const std::string &name, const std::string &by, Moment at);
    void stop_all(const std::string &by, Moment at);
    void release(const std::string &name) { stops_.erase(name); }

    void connected(const std::string &name, bool is_on);

    // As pages have it.
    nlohmann::json view() const;
    // What keeps the stops over a restart, as of now: it waits for the disk, on any thread, and
    // says in words why not.
    std::function<std::string()> writer() const;

  private:
    struct Stop {
        std::string by; // a login
        Moment at;
    };
    const std::vector<Program> programs_;
    const std::string path_;
    std::map<std::string, Stop> stops_; // by name
    std::set<std::string> connected_;
};

} // namespace desk

#endif
