// A day that is open ends at midnight in UTC: a test that opens one has to have room before that.
#ifndef GATEWAY_TESTS_ROOM_OF_DAY_H
#define GATEWAY_TESTS_ROOM_OF_DAY_H

#include <chrono>
#include <thread>

namespace gateway::tests {

// Waits for the next day where less than two minutes are left of this one; and until ten seconds of
// it have passed, so that a moment just before now is of it too.
inline void wait_for_room_of_day() {
    using namespace std::chrono;
    const auto has_room = [] {
        const auto now = system_clock::now();
        const auto passed = now - floor<days>(now);
        return passed >= seconds(10) && passed <= hours(24) - minutes(2);
    };
    while (!has_room()) {
        std::this_thread::sleep_for(milliseconds(10));
    }
}

} // namespace gateway::tests

#endif
