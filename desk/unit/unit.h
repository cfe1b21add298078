// What the unit tests share: messages as the venue and the firm write them, and a folder.
#ifndef DESK_TESTS_UNIT_H
#define DESK_TESTS_UNIT_H

#include "journal.h"

#include <filesystem>
#include <string>

namespace desk_tests {

// Fields with bars for SOH, as the pages write them.
std::string fix(std::string text);

// An entry at a millisecond of the day 2026-03-14.
desk::Entry entry(desk::Entry::Kind kind, int millisecond, const std::string &text);

// A folder that is removed at its end.
class Folder {
  public:
    Folder();
    ~Folder();
    Folder(const Folder &) = delete;
    Folder &operator=(const Folder &) = delete;
    std::string file(const std::string &name) const { return path_ / name; }

  private:
    std::filesystem::path path_;
};

} // namespace desk_tests

#endif
