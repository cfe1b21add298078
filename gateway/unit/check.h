// A check for the unit tests: it prints what was wanted and what came.
#ifndef GATEWAY_TESTS_CHECK_H
#define GATEWAY_TESTS_CHECK_H

#include <algorithm>
#include <exception>
#include <filesystem>
#include <iostream>
#include <span>
#include <stdexcept>
#include <string>
#include <system_error>

#include <unistd.h>

#include <fmt/format.h>

namespace gateway::tests {

// Bars become SOH, and SOH bars.
inline std::string with_soh(std::string text) {
    std::replace(text.begin(), text.end(), '|', '\x01');
    return text;
}
inline std::string with_bars(std::string text) {
    std::replace(text.begin(), text.end(), '\x01', '|');
    return text;
}

// In a test of doctest, whose header stands in front, it ends the case.
inline void check(bool holds, const std::string &what) {
#ifdef DOCTEST_VERSION
    REQUIRE_MESSAGE(holds, what);
#else
    if (!holds) {
        throw std::runtime_error(what);
    }
#endif
}

template <typename Value>
void same(const Value &wanted, const Value &came, const std::string &what) {
    check(wanted == came, fmt::format("{}: wanted {}, came {}", what, wanted, came));
}

// With what words an act fails; none where it is done.
inline std::string fault_of(const auto &act) {
    try {
        act();
    } catch (const std::runtime_error &fault) {
        return fault.what();
    }
    return "";
}

// A folder of one test, empty at first, which is left to the machine where the test fails.
class Scratch {
  public:
    explicit Scratch(const std::string &name) {
        std::string path = (std::filesystem::temp_directory_path() / (name + ".XXXXXX")).string();
        check(::mkdtemp(path.data()) != nullptr, "there is no room for " + path);
        path_ = path;
    }
    Scratch(const Scratch &) = delete;
    Scratch &operator=(const Scratch &) = delete;
    ~Scratch() {
        std::error_code fault;
        std::filesystem::remove_all(path_, fault);
    }

    const std::filesystem::path &path() const { return path_; }

  private:
    std::filesystem::path path_;
};

// What a test's main does: its status is 0, or 1 with the first fault on standard error, or 2 with
// the usage where it was given fewer words than it takes, or more.
template <typename Tests>
int run_with(int count, char **words, std::size_t least, std::size_t most, const char *usage,
             const Tests &tests) {
    const std::span<char *> given(words + 1, words + count);
    if (given.size() < least || given.size() > most) {
        std::cerr << "usage: " << usage << '\n';
        return 2;
    }
    try {
        tests(given);
        return 0;
    } catch (const std::exception &fault) {
        std::cerr << fault.what() << '\n';
        return 1;
    }
}

} // namespace gateway::tests

#endif
