// One page in a trader's browser, at the other end of a WebSocket.
#ifndef DESK_OPEN_PAGE_H
#define DESK_OPEN_PAGE_H

#include "common/web/site.h"
#include "config.h"
#include "desk.h"
#include "moment.h"

#include <chrono>
#include <cstdint>
#include <memory>
#include <string>
#include <string_view>

#include <nlohmann/json.hpp>

namespace desk {

class DeskSite;

class OpenPage final : public web::SocketUser, public std::enable_shared_from_this<OpenPage> {
  public:
    OpenPage(DeskSite &site, const Trader &trader, std::string cookie);
    // Of a program, which has shown its token.
    OpenPage(DeskSite &site, const Program &program);

    void tell(const std::shared_ptr<const std::string> &text);
    // Everything from the begin.
    void tell_all();
    // Looks whether the session goes on.
    void tick();
    bool is_of(const std::string &cookie) const { return !program_ && cookie_ == cookie; }
    bool is_of(const Program &program) const { return program_ == &program; }
    bool is_program() const { return program_ != nullptr; }
    bool has_shown_token() const { return has_shown_token_; }
    const Trader &trader() const { return trader_; }
    // When its trader last did something in it: of two pages one was used later, whatever the clock
    // of the day does.
    std::chrono::steady_clock::time_point used() const { return used_; }
    void end();
    // The page is told why, and does not come back by itself.
    void end(const std::string &why);

    // web::SocketUser
    void opened(std::shared_ptr<web::Socket> socket) override;
    void heard(std::string_view text) override;
    void closed() override;

  private:
    void hear_token(const nlohmann::json &message);
    void hear_command(const nlohmann::json &message);
    void say(const nlohmann::json &message);
    void answer(std::uint64_t number, const std::string &why);
    void answer(std::uint64_t number, const Desk::Answer &answer);
    // What changed of its trader's limits, and of all traders' for the firm's admin.
    void tell_limits();
    void uses();

    DeskSite &site_;
    const Trader &trader_;
    const Program *const program_; // null for a page
    const std::string cookie_;
    const Moment begin_;
    std::chrono::steady_clock::time_point used_ = std::chrono::steady_clock::now();
    std::shared_ptr<web::Socket> socket_; // null before it is open, and after it was closed
    bool has_shown_token_ = false;
    nlohmann::json told_trader_;
    nlohmann::json told_limits_;
};

// As every page is told it: what a firm's text has of bytes that are no UTF-8 is replaced.
std::shared_ptr<const std::string> text_of(const nlohmann::json &message);

} // namespace desk

#endif
