#include "operator/admin_report.h"

#include "base/digest.h"
#include "config/signed_report.h"

#include <array>
#include <fstream>
#include <stdexcept>

#include <spawn.h>
#include <sys/wait.h>
#include <unistd.h>

namespace gateway {

namespace {

constexpr std::size_t longest_report = std::size_t{64} << 20;
constexpr std::size_t longest_signature = 4096;
constexpr const char *writer = "mireseason-credentials";

std::string text_of_file(const std::filesystem::path &file, std::size_t most) {
    std::ifstream in(file, std::ios::binary);
    std::string text(most + 1, '\0');
    if (!in.read(text.data(), static_cast<std::streamsize>(text.size())) && !in.eof()) {
        throw std::runtime_error(file.string() + ": can't be read");
    }
    text.resize(static_cast<std::size_t>(in.gcount()));
    if (text.size() > most) {
        throw std::runtime_error(file.string() + ": it is too long");
    }
    return text;
}

} // namespace

std::string line_that_signs(const std::filesystem::path &report) {
    std::filesystem::path beside = report;
    beside.replace_extension(".signature");
    std::string line = text_of_file(beside, longest_signature);
    line.erase(line.find_last_not_of("\r\n") + 1);
    const auto read = signed_report_of(line);
    if (!read) {
        throw std::runtime_error(beside.string() + ": is no line that signs a report");
    }
    if (read->report != sha256(text_of_file(report, longest_report))) {
        throw std::runtime_error(beside.string() + ": signs another report than " +
                                 report.string());
    }
    return line;
}

bool keep_report(const std::string &credentials, const std::string &firm, const std::string &line) {
    const std::array<const char *, 6> words = {writer,       "--report",          line.c_str(),
                                               firm.c_str(), credentials.c_str(), nullptr};
    pid_t process = 0;
    int status = 0;
    return ::posix_spawnp(&process, writer, nullptr, nullptr,
                          const_cast<char *const *>(words.data()), environ) == 0 &&
           ::waitpid(process, &status, 0) == process && WIFEXITED(status) &&
           WEXITSTATUS(status) == 0;
}

} // namespace gateway
