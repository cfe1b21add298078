#include "identifiers.h"

namespace desk {

Identifiers::Identifiers(Moment begin) {
    constexpr const char *digits = "0123456789ABCDEFGHIJKLMNOPQRSTUVWXYZ";
    const Moment midnight = std::chrono::floor<std::chrono::days>(begin);
    for (auto left = (begin - midnight).count(); left > 0; left /= 36) {
        begin_.insert(begin_.begin(), digits[left % 36]);
    }
}

std::string Identifiers::next(char kind) {
    return kind + begin_ + "-" + std::to_string(++count_);
}

} // namespace desk
