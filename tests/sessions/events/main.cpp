// Days of drawn events at the session of each library, compared turn by turn: README.md.
//
//     events FIRST LAST
#include "day.h"

#include <cstdio>
#include <cstdlib>
#include <stdexcept>

namespace {

// A day: what is wrong with it, or nothing.
std::string wrong_of(std::uint32_t seed, sessions::Counts &all) {
    sessions::EventDay day(seed);
    try {
        day.run();
    } catch (const std::runtime_error &fault) {
        return fault.what();
    }
    const sessions::Counts &counts = day.counts();
    all.events += counts.events;
    all.logons += counts.logons;
    all.taken += counts.taken;
    all.sent += counts.sent;
    all.resent += counts.resent;
    all.rejected += counts.rejected;
    all.settled += counts.settled;
    return {};
}

} // namespace

int main(int count, char **words) {
    if (count < 3) {
        std::fprintf(stderr, "events FIRST LAST\n");
        return 2;
    }
    const auto first = static_cast<std::uint32_t>(std::strtoul(words[1], nullptr, 10));
    const auto last = static_cast<std::uint32_t>(std::strtoul(words[2], nullptr, 10));
    sessions::Counts all;
    int failed = 0;
    for (std::uint32_t seed = first; seed <= last; ++seed) {
        const std::string wrong = wrong_of(seed, all);
        if (!wrong.empty()) {
            ++failed;
            std::printf("seed %u: %s\n", seed, wrong.c_str());
        }
    }
    std::printf("%ld events, %ld logons, %ld settled, %ld taken, %ld sent, %ld again, %ld kept\n",
                all.events, all.logons, all.settled, all.taken, all.sent, all.resent, all.rejected);
    std::printf("%d passed, %d failed\n", static_cast<int>(last - first + 1) - failed, failed);
    return failed == 0 ? 0 : 1;
}
