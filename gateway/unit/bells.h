// Bells (eventfd(2)) by which the threads of a process wake each other.
#ifndef GATEWAY_TESTS_BELLS_H
#define GATEWAY_TESTS_BELLS_H

#include <chrono>
#include <cstdint>
#include <filesystem>
#include <fstream>
#include <string>
#include <thread>

namespace gateway::tests {

// How often bells of this process were rung since they were heard.
inline std::uint64_t unheard() {
    std::uint64_t sum = 0;
    for (const auto &file : std::filesystem::directory_iterator("/proc/self/fdinfo")) {
        std::ifstream facts(file.path());
        for (std::string word; facts >> word;) {
            if (word == "eventfd-count:" && facts >> word) {
                sum += std::stoull(word, nullptr, 16);
            }
        }
    }
    return sum;
}

// Whether each is heard before long. One that is not rings on, and its thread finds no rest.
inline bool all_are_heard() {
    const auto latest = std::chrono::steady_clock::now() + std::chrono::seconds(60);
    while (unheard() > 0 && std::chrono::steady_clock::now() < latest) {
        std::this_thread::sleep_for(std::chrono::milliseconds(1));
    }
    return unheard() == 0;
}

} // namespace gateway::tests

#endif
