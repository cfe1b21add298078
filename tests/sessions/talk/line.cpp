#include "line.h"

#include <algorithm>

namespace sessions {

namespace {

unsigned draw(std::mt19937 &random, std::size_t below) {
    return static_cast<unsigned>(random() % below);
}

// One byte becomes another: the sum is wrong, or the length, or it begins no message.
std::string spoilt(std::string bytes, std::mt19937 &random) {
    bytes[draw(random, bytes.size())] ^= static_cast<char>(1 + draw(random, 127));
    return bytes;
}

// Some bytes are left out.
std::string shortened(const std::string &bytes, std::mt19937 &random) {
    const std::size_t at = draw(random, bytes.size());
    return bytes.substr(0, at) + bytes.substr(at + 1 + draw(random, bytes.size() - at));
}

} // namespace

void Way::put(const std::string &message, const Faults &faults, std::mt19937 &random) {
    if (draw(random, 1000) < faults.loses) {
        return;
    }
    std::string bytes = draw(random, 1000) < faults.spoils ? spoilt(message, random) : message;
    bytes = draw(random, 1000) < faults.shortens ? shortened(bytes, random) : bytes;
    const int copies = draw(random, 1000) < faults.doubles ? 2 : 1;
    for (int copy = 0; copy < copies; ++copy) {
        const auto delay =
            static_cast<Millis>(draw(random, static_cast<std::size_t>(faults.most_delay) + 1));
        last_ = std::max(last_, now() + delay);
        parts_.push_back({last_, bytes});
    }
}

std::string Way::pull() {
    if (parts_.empty() || parts_.front().due > now()) {
        return {};
    }
    const std::string bytes = parts_.front().bytes;
    parts_.pop_front();
    return bytes;
}

void Way::cut(std::mt19937 &random) {
    const std::size_t left = draw(random, parts_.size() + 1);
    parts_.resize(left);
    if (left > 0) {
        std::string &bytes = parts_.back().bytes;
        bytes.resize(draw(random, bytes.size() + 1));
    }
}

} // namespace sessions
