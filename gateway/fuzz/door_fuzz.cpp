// Fuzzes what faces the network, from bytes to sessions. Each input is what a few connections
// bring. The fuzzer runs it as strangers and as somebody who knows the passwords, in whole messages
// and in pieces.
//
// usage: door_fuzz [options of libFuzzer] [CORPUS ..]
#include "book.h"
#include "mutator.h"
#include "rig.h"
#include "script.h"
#include "still_clock.h"

#include <csignal>
#include <cstdint>
#include <cstring>
#include <vector>

#include <sys/time.h>

namespace {

// More than one after the other bring nothing new, and take time.
constexpr std::size_t most_connections = 3;

// Of one input, and of the processor: by the clock a process takes long that was stopped, or that a
// busy machine gave little. The one thread waits for nobody, so what does not end uses up a
// processor.
constexpr time_t most_seconds = 60;

// 0 ends the limit.
void limit_processor_time(time_t seconds) {
    itimerval limit{};
    limit.it_value.tv_sec = seconds;
    ::setitimer(ITIMER_PROF, &limit, nullptr);
}

std::string text_of(const std::uint8_t *data, std::size_t size) {
    return std::string(reinterpret_cast<const char *>(data), size);
}

std::size_t put(const std::string &bytes, std::uint8_t *data) {
    std::memcpy(data, bytes.data(), bytes.size());
    return bytes.size();
}

} // namespace

// libFuzzer's own limit is by the date, which stands still here.
extern "C" int LLVMFuzzerInitialize(int *count, char ***words) {
    static char without_limit[] = "-timeout=0";
    static std::vector<char *> all(*words, *words + *count);
    all.push_back(without_limit);
    *count = static_cast<int>(all.size());
    all.push_back(nullptr);
    *words = all.data();
    std::signal(SIGPROF, [](int) { gateway::fuzz::violated("it takes too long"); });
    return 0;
}

extern "C" int LLVMFuzzerTestOneInput(const std::uint8_t *data, std::size_t size) {
    using namespace gateway::fuzz;
    const gateway::tests::StillClock clock;
    limit_processor_time(most_seconds);
    std::vector<Bytes> connections = connections_of(text_of(data, size));
    if (connections.size() > most_connections) {
        connections.resize(most_connections);
    }
    run_connections(connections, Password::withheld, Cut::whole);
    const std::string whole = run_connections(connections, Password::given, Cut::whole);
    const std::string pieces = run_connections(connections, Password::given, Cut::short_pieces);
    if (whole != pieces) {
        violated("cut into pieces it is\n" + pieces + "and whole\n" + whole);
    }
    limit_processor_time(0);
    return 0;
}

extern "C" std::size_t LLVMFuzzerCustomMutator(std::uint8_t *data, std::size_t size,
                                               std::size_t most, unsigned seed) {
    return put(gateway::fuzz::Mutator(seed).mutated(text_of(data, size), most), data);
}

extern "C" std::size_t LLVMFuzzerCustomCrossOver(const std::uint8_t *one, std::size_t one_size,
                                                 const std::uint8_t *other, std::size_t other_size,
                                                 std::uint8_t *out, std::size_t most,
                                                 unsigned seed) {
    const std::string bytes = gateway::fuzz::Mutator(seed).crossed(
        text_of(one, one_size), text_of(other, other_size), most);
    return put(bytes.substr(0, most), out);
}
