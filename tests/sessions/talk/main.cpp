// Days of two sessions that talk, drawn by their seeds: README.md says what a day is.
//
//     talk FIRST LAST
#include "day.h"

#include <cstdio>
#include <cstdlib>
#include <stdexcept>

namespace {

// A day: what is wrong with it, or nothing.
std::string wrong_of(sessions::TalkDay &day) {
    try {
        return day.run();
    } catch (const std::runtime_error &fault) {
        return std::string(" ") + fault.what();
    }
}

} // namespace

int main(int count, char **words) {
    if (count < 3) {
        std::fprintf(stderr, "talk FIRST LAST\n");
        return 2;
    }
    const auto first = static_cast<std::uint32_t>(std::strtoul(words[1], nullptr, 10));
    const auto last = static_cast<std::uint32_t>(std::strtoul(words[2], nullptr, 10));
    long messages = 0, lines = 0;
    int failed = 0;
    for (std::uint32_t seed = first; seed <= last; ++seed) {
        sessions::TalkDay day(seed);
        const std::string wrong = wrong_of(day);
        messages += day.messages();
        lines += day.lines();
        if (!wrong.empty()) {
            ++failed;
            std::printf("seed %u:%s\n", seed, wrong.c_str());
        }
    }
    std::printf("%ld messages on %ld lines\n", messages, lines);
    std::printf("%d passed, %d failed\n", static_cast<int>(last - first + 1) - failed, failed);
    return failed == 0 ? 0 : 1;
}
