// usage: engines DICTIONARY PROGRAM CONFIGURATION WORK FRAMES..
// FRAMES are files of what the program printed with --frames. With the word `read` for PROGRAM only
// these files are read.
#include "parts.h"

#include <cstdio>
#include <exception>

int main(int count, char **words) {
    if (count < 5) {
        std::fprintf(stderr, "usage: engines DICTIONARY PROGRAM CONFIGURATION WORK FRAMES..\n");
        return 2;
    }
    const char *part = "the dictionary";
    try {
        const std::string text = bytes_of(words[1]);
        const Dictionary dictionary(text);
        Traffic traffic;
        part = "frames of the program";
        read_frames(dictionary, std::vector<std::string>(words + 5, words + count), traffic);
        if (std::string(words[2]) == "read") {
            return 0;
        }
        const Venue venue{words[2], bytes_of(words[3]), words[4]};
        part = "messages built by QuickFIX";
        build_messages(dictionary, venue, traffic);
        part = "session checks";
        refuse_messages(dictionary, venue, traffic);
        part = "planted faults";
        plant_faults(dictionary, text, traffic);
        return 0;
    } catch (const std::exception &e) {
        std::fprintf(stderr, "FAILED: %s: %s\n", part, e.what());
        return 1;
    }
}
