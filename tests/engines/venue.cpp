#include "venue.h"

#include "dictionary.h"

#include <cstdlib>
#include <fstream>
#include <sstream>
#include <stdexcept>

void fail(const std::string &what) { throw std::runtime_error(what); }

std::vector<Sent> frames_of(const std::string &text) {
    std::vector<Sent> all;
    std::istringstream lines(text);
    for (std::string line; std::getline(lines, line);) {
        const size_t space = line.find(' ');
        if (space == std::string::npos) {
            fail("not a line of a firm and a frame: " + line);
        }
        all.push_back(Sent{line.substr(0, space), with_soh(line.substr(space + 1))});
    }
    return all;
}

std::vector<Sent> Venue::replay(const std::vector<std::string> &steps) const {
    const std::string input = work + "/replay.in";
    const std::string output = work + "/replay.out";
    std::ofstream file(input, std::ios::binary);
    file << configuration << "%%\n";
    for (const std::string &step : steps) {
        file << step << '\n';
    }
    file.close();
    const std::string command =
        "'" + program + "' replay --frames < '" + input + "' > '" + output + "'";
    if (std::system(command.c_str()) != 0) {
        fail("the program ended with another status than 0 on " + input);
    }
    return frames_of(bytes_of(output));
}
