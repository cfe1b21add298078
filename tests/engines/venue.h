// Runs the venue's program from outside.
#ifndef VENUE_H
#define VENUE_H

#include <string>
#include <vector>

// A message that the venue sent.
struct Sent {
    std::string firm;
    std::string frame;
};

// The frames of printed lines, `FIRM FRAME` each. Throws where a line is not of that form.
std::vector<Sent> frames_of(const std::string &text);

// Where the program and a configuration stand, and where files may be written.
struct Venue {
    std::string program;
    std::string configuration;
    std::string work;

    // What `replay --frames` prints for the configuration and these step lines. Throws where its
    // status is not 0.
    std::vector<Sent> replay(const std::vector<std::string> &steps) const;
};

// Frames that were sent to the venue and by it, kept so that they can be used again.
struct Traffic {
    std::vector<std::string> to_venue;
    std::vector<std::string> from_venue;
};

// A check that did not hold: thrown with what was wanted and what came.
[[noreturn]] void fail(const std::string &what);

#endif
