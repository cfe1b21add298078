// Reads a log whose database may go away and come back.
#ifndef GATEWAY_LOG_RECONNECTING_READER_H
#define GATEWAY_LOG_RECONNECTING_READER_H

#include "log/database.h"

#include <chrono>
#include <memory>
#include <stop_token>
#include <thread>
#include <utility>

namespace gateway {

// One thread at a time.
class ReconnectingReader {
  public:
    ReconnectingReader(Database &database, std::stop_token stop)
        : database_(database), stop_(std::move(stop)) {}

    // What `work` makes of a reader. Where the database is away it is asked again, of a new
    // connection, for as long as a database may need to find another primary; then, or where the
    // stop is asked for, DatabaseAway is thrown.
    template <typename Work> auto ask(Work work) {
        const auto latest = std::chrono::steady_clock::now() + longest;
        for (;;) {
            try {
                if (!reader_) {
                    reader_ = database_.reader();
                }
                return work(*reader_);
            } catch (const DatabaseAway &) {
                reader_.reset();
                if (stop_.stop_requested() || std::chrono::steady_clock::now() >= latest) {
                    throw;
                }
            }
            std::this_thread::sleep_for(pause);
        }
    }

  private:
    static constexpr auto longest = std::chrono::seconds(60);
    static constexpr auto pause = std::chrono::milliseconds(100);

    Database &database_;
    std::stop_token stop_;
    std::unique_ptr<LogReader> reader_;
};

} // namespace gateway

#endif
