#include "parts.h"

#include <cstdio>
#include <map>

namespace {

// Fails unless the frame is lawful by the dictionary, and the same when QuickFIX writes it again.
void read_frame(const Dictionary &dictionary, const std::string &frame, const std::string &where) {
    const Verdict verdict = dictionary.judge(frame);
    if (!verdict.lawful) {
        fail(where + ": refused, tag " + std::to_string(verdict.tag) + ", " + verdict.why + ": "
             + with_bars(frame));
    }
    const std::string again = dictionary.write_again(frame);
    if (again != frame) {
        fail(where + ": QuickFIX writes " + with_bars(again) + " for " + with_bars(frame));
    }
}

}  // namespace

void read_frames(const Dictionary &dictionary, const std::vector<std::string> &files,
                 Traffic &traffic) {
    std::map<std::string, int> kinds;
    for (const std::string &file : files) {
        int line = 0;
        for (const Sent &sent : frames_of(bytes_of(file))) {
            line += 1;
            read_frame(dictionary, sent.frame, file + ", line " + std::to_string(line));
            kinds[FIX::identifyType(sent.frame).getValue()] += 1;
            traffic.from_venue.push_back(sent.frame);
        }
    }
    std::printf("%zu frames of %zu files are read, and written again byte by byte:",
                traffic.from_venue.size(), files.size());
    for (const auto &kind : kinds) {
        std::printf(" %s %d", kind.first.c_str(), kind.second);
    }
    std::printf("\n");
}
