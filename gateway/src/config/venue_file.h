// Reads the venue's configuration as its operator wrote it, and tells every fault before anything
// depends on it. FORMATS.md has the tables of what is allowed.
#ifndef GATEWAY_CONFIG_VENUE_FILE_H
#define GATEWAY_CONFIG_VENUE_FILE_H

#include <cstddef>
#include <filesystem>
#include <stdexcept>
#include <string>
#include <string_view>
#include <vector>

namespace gateway {

// A fault of the file. The row is that of a bond, a dealer or an investor, and empty for a key that
// stands above the tables.
struct VenueFileFault {
    std::size_t line = 0; // of the operator's file, from 1
    std::string row;
    std::string what;
};

// All faults of a file, each on a line of its own: file, line, row, key, value, and what is
// allowed.
class VenueFileFaults : public std::runtime_error {
  public:
    VenueFileFaults(const std::filesystem::path &file, std::vector<VenueFileFault> faults);
    const std::vector<VenueFileFault> &faults() const { return faults_; }
    const std::filesystem::path &file() const { return file_; }

  private:
    std::filesystem::path file_;
    std::vector<VenueFileFault> faults_;
};

// What the venue's program is given.
struct VenueFile {
    std::string text; // byte for byte the operator's, with a line feed at its end and with its date
    std::string date; // eight digits
    bool has_own_date = false;
    std::vector<std::string> firms; // the dealers, and the investors after them
};

// Reads a configuration's text. Where it has no date, it is given the day's: eight digits. Throws
// VenueFileFaults. A key that the program ignores is a fault, but for those that tell people more:
// the venue's `mic`, and of a bond its name, its ISIN, its currency, and how its prices are quoted.
VenueFile read_venue_file(const std::filesystem::path &file, std::string text,
                          std::string_view day);

} // namespace gateway

#endif
