// Keeps the last checkpoint of a log in a file outside of its database, which shows if somebody cut
// off the end of the log.
#ifndef GATEWAY_LOG_CHECKPOINT_FILE_H
#define GATEWAY_LOG_CHECKPOINT_FILE_H

#include "log/seals.h"

#include <filesystem>
#include <optional>
#include <string>
#include <string_view>

namespace gateway {

// In the place of `.checkpoint`, for what was sealed before the day opened.
constexpr const char *early_ending = ".early";

// The file of a day's checkpoint (eight digits), in the folder of all of them.
std::filesystem::path checkpoint_path(const std::filesystem::path &folder, const std::string &venue,
                                      std::string_view date);
// Whether it says that its day goes on; not where there is none. It is not verified.
bool says_that_it_goes_on(const std::filesystem::path &file);

// The file is text: what was signed, as it was signed, and a line with the signature in hexadecimal
// digits. One thread at a time.
class CheckpointFile {
  public:
    // In a folder, named after the venue and the day.
    CheckpointFile(const std::filesystem::path &folder, Sealer sealer);
    // Beside it, and of what was sealed before the day opened: that a day has begun is seen by the
    // other file.
    static CheckpointFile before_opening(const std::filesystem::path &folder, Sealer sealer);

    const std::filesystem::path &path() const { return path_; }

    // What stands there; nothing where there is no file. Throws std::runtime_error where it is no
    // checkpoint of this log by one of its gateways.
    std::optional<Checkpoint> read() const;
    // What stands in the file of a checkpoint.
    std::string text_of_file(const Checkpoint &checkpoint) const;
    // Puts a checkpoint in the place of what stands there. On disk when it returns.
    void write(const Checkpoint &checkpoint) const;
    // Takes it away, where there is one.
    void remove() const;

  private:
    Sealer sealer_;
    std::filesystem::path path_;
};

} // namespace gateway

#endif
