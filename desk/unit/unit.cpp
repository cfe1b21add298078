#define DOCTEST_CONFIG_IMPLEMENT_WITH_MAIN
#include <doctest/doctest.h>

#include "unit.h"

#include <algorithm>
#include <chrono>
#include <cstdlib>

namespace desk_tests {

std::string fix(std::string text) {
    std::replace(text.begin(), text.end(), '|', '\x01');
    return text;
}

desk::Entry entry(desk::Entry::Kind kind, int millisecond, const std::string &text) {
    using namespace std::chrono;
    const desk::Moment day = sys_days(2026y / March / 14);
    return {kind, day + milliseconds(millisecond), fix(text)};
}

Folder::Folder() {
    std::string form = (std::filesystem::temp_directory_path() / "desk-unit-XXXXXX").string();
    path_ = ::mkdtemp(form.data());
}

Folder::~Folder() {
    std::filesystem::remove_all(path_);
}

} // namespace desk_tests
