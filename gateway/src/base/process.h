// A child process with pipes.
#ifndef GATEWAY_BASE_PROCESS_H
#define GATEWAY_BASE_PROCESS_H

#include "common/descriptor.h"

#include <chrono>
#include <mutex>
#include <string>
#include <string_view>
#include <vector>

#include <sys/types.h>

namespace gateway {

// Starts with its own group of processes, so that a Ctrl-C at the gateway's terminal does not reach
// it, and is killed and waited for when it is destroyed.
class Process {
  public:
    // The first word is the program, looked up in PATH. Throws std::system_error.
    explicit Process(const std::vector<std::string> &command);
    ~Process();
    Process(const Process &) = delete;
    Process &operator=(const Process &) = delete;

    // Writes all bytes to its standard input, and waits for room there; false where it does not
    // read any more, or has not read enough before `latest`.
    using Time = std::chrono::steady_clock::time_point;
    bool write(std::string_view bytes, Time latest = Time::max());
    // Writes what its standard input takes at once, and returns how much that is.
    std::size_t write_at_once(std::string_view bytes);
    void close_input();
    // The next bytes of its standard output or error, empty at the end; and where there is none
    // before `latest`: what it has started may keep it open.
    std::string read_output(Time latest = Time::max());
    std::string read_errors(Time latest = Time::max());
    // And all that it has started: else its output would not end. Any thread may call it, and the
    // next one.
    void kill();
    // Waits for its end so long at most, and kills it then. Whether it ended by itself.
    bool end_within(std::chrono::milliseconds longest);
    // The same, and kills what it has started and left.
    void end_all_within(std::chrono::milliseconds longest);
    // Waits for its end, and says how it ended.
    std::string wait();

  private:
    std::mutex mutex_; // over the end of its number, which another process may have after it
    pid_t pid_ = -1;
    Descriptor input_;
    Descriptor output_;
    Descriptor errors_;
};

} // namespace gateway

#endif
