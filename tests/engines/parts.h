// The parts of the test. Each throws at the first check that fails, and says what it counted.
#ifndef PARTS_H
#define PARTS_H

#include "dictionary.h"
#include "venue.h"

#include <string>
#include <vector>

// Reads each frame of files that the program printed.
void read_frames(const Dictionary &dictionary, const std::vector<std::string> &files,
                 Traffic &traffic);

// Builds messages by QuickFIX's types, sends them, and looks at the answers.
void build_messages(const Dictionary &dictionary, const Venue &venue, Traffic &traffic);

// Compares the session checks of the venue with what QuickFIX says by the dictionary.
void refuse_messages(const Dictionary &dictionary, const Venue &venue, Traffic &traffic);

// Plants faults in frames and in the dictionary's text, each of which has to be found.
void plant_faults(const Dictionary &dictionary, const std::string &text, const Traffic &traffic);

#endif
