// Which drawn change a program does, and which functions it passes through. together.py writes the calls of these into a copy.
#pragma once

#include <cstdio>
#include <cstdlib>
#include <fcntl.h>
#include <string>
#include <sys/mman.h>
#include <unistd.h>

namespace drawn {

// The first word of a file of the recording.
inline std::string word_of(const std::string& path) {
    char word[64] = "";
    if (std::FILE* const file = std::fopen(path.c_str(), "re")) {
        if (std::fscanf(file, "%63s", word) != 1)
            word[0] = 0;
        std::fclose(file);
    }
    return word;
}

// A byte for each function, in a file that all programs of a test share: what is killed has marked, too. As
// recording/sitecustomize.py has it.
inline unsigned char* marks_of_run() {
    const char* const folder = std::getenv("RECORDED_FOLDER");
    const char* const current = std::getenv("RECORDED_CURRENT");
    if (folder == nullptr || current == nullptr)
        return nullptr;
    const std::string in = folder;
    const long size = std::atol(word_of(in + "/size").c_str());
    const int file = ::open((in + "/marks/" + word_of(current)).c_str(),
                            O_RDWR | O_CREAT | O_CLOEXEC, 0666);
    if (file < 0)
        return nullptr;
    const bool is_whole = ::lseek(file, 0, SEEK_END) >= size || ::ftruncate(file, size) == 0;
    void* const at = ::mmap(nullptr, static_cast<std::size_t>(size), PROT_READ | PROT_WRITE,
                            MAP_SHARED, file, 0);
    ::close(file);
    return is_whole && at != MAP_FAILED ? static_cast<unsigned char*>(at) : nullptr;
}

inline int change_of_run() {
    const char* const number = std::getenv("DRAWN");
    return number == nullptr ? 0 : std::atoi(number);
}

// Read before main: later the program may be confined.
inline unsigned char* const marks = marks_of_run();
inline const int change = change_of_run();

inline void passes(int function) noexcept {
    if (marks != nullptr)
        marks[function] = 1;
}

inline bool does(int number) noexcept {
    return number == change;
}

} // namespace drawn
