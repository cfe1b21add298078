// Waits for what other threads do.
#ifndef GATEWAY_TESTS_COMES_TRUE_H
#define GATEWAY_TESTS_COMES_TRUE_H

#include <chrono>
#include <thread>

namespace gateway::tests {

// Whether something becomes true within a minute: a machine may be busy.
template <class Condition> bool comes_true(const Condition &condition) {
    const auto latest = std::chrono::steady_clock::now() + std::chrono::minutes(1);
    bool is_true = condition();
    while (!is_true && std::chrono::steady_clock::now() < latest) {
        std::this_thread::sleep_for(std::chrono::milliseconds(10));
        is_true = condition();
    }
    return is_true;
}

} // namespace gateway::tests

#endif
