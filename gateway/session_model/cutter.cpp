#include "cutter.h"

#include <algorithm>

namespace session_model {

namespace {

constexpr std::size_t MOST_VERSION = 16;
constexpr std::size_t MOST_LENGTH_DIGITS = 9; // that make it a message
constexpr std::size_t MOST_LAWFUL_DIGITS = 6; // that make it a lawful one
constexpr std::size_t TRAILER = 7;            // `10=`, three digits, SOH

// Of a BeginString: behind the torn front of a message another one begins with a field of its own.
bool is_of_version(char byte) {
    return byte >= ' ' && byte <= '~' && byte != '=';
}

// Reads along a text, one part behind the other.
class Reading {
  public:
    explicit Reading(Text bytes) : bytes_(bytes) {}

    std::size_t place() const { return place_; }
    bool is_over() const { return place_ == bytes_.size(); }
    // It can't be a message whatever follows.
    bool is_wrong() const { return is_wrong_; }

    // The bytes of a text.
    void expect(Text text) {
        const std::size_t seen = std::min(text.size(), bytes_.size() - place_);
        is_wrong_ = is_wrong_ || bytes_.substr(place_, seen) != text.substr(0, seen);
        place_ += seen;
    }

    // At least one byte of a kind, and at most so many, up to SOH.
    template <typename IsOne> Text run(std::size_t most, IsOne is_one) {
        const std::size_t begin = place_;
        while (!is_over() && place_ - begin < most && is_one(bytes_[place_])) {
            ++place_;
        }
        const Text found = bytes_.substr(begin, place_ - begin);
        if (!is_over()) {
            is_wrong_ = is_wrong_ || found.empty() || bytes_[place_] != SOH;
        }
        return found;
    }

  private:
    Text bytes_;
    std::size_t place_ = 0;
    bool is_wrong_ = false;
};

// `8=V`, SOH, `9=L`, SOH.
struct Beginning {
    Text version, length;
    std::size_t size = 0;
    bool is_whole = false;
    bool is_wrong = false;
};

Beginning beginning_of(Text bytes) {
    const Text end(&SOH, 1);
    Reading reading(bytes);
    Beginning begun;
    reading.expect("8=");
    begun.version = reading.run(MOST_VERSION, is_of_version);
    if (!reading.is_over() && !reading.is_wrong()) {
        reading.expect(end);
        reading.expect("9=");
        begun.length = reading.run(MOST_LENGTH_DIGITS, is_digit);
        begun.is_whole = !reading.is_over() && !reading.is_wrong();
        reading.expect(end);
    }
    begun.size = reading.place();
    begun.is_wrong = reading.is_wrong();
    return begun;
}

bool is_trailer(Text bytes) {
    return bytes.substr(0, 3) == "10=" && are_digits(bytes.substr(3, 3)) && bytes.back() == SOH;
}

} // namespace

Front front_of(Text bytes) {
    Front front;
    const Beginning begun = beginning_of(bytes);
    if (begun.is_wrong) {
        return front;
    }
    if (!begun.is_whole) {
        front.kind = Front::Kind::begun;
        return front;
    }
    const std::size_t body = *number_in(begun.length);
    front.length = begun.size + body + TRAILER;
    front.version = begun.version;
    front.body = bytes.substr(begun.size, body);
    if (front.length > MOST_MESSAGE) {
        front.kind = bytes.size() < MOST_MESSAGE ? Front::Kind::begun : Front::Kind::too_long;
        return front;
    }
    if (begun.length.size() > MOST_LAWFUL_DIGITS) {
        return front;
    }
    if (bytes.size() < front.length) {
        front.kind = Front::Kind::begun;
        return front;
    }
    const Text summed = bytes.substr(0, begun.size + body);
    const Text trailer = bytes.substr(summed.size(), TRAILER);
    if (is_trailer(trailer)) {
        front.kind = Front::Kind::whole;
        front.is_sum_right = trailer.substr(3, 3) == three_digits(sum_of(summed));
    }
    return front;
}

Found next_message(Text stream) {
    std::size_t skip = 0;
    while (skip < stream.size()) {
        const Front front = front_of(stream.substr(skip));
        switch (front.kind) {
        case Front::Kind::begun:
            return {skip, Found::Kind::nothing, 0};
        case Front::Kind::too_long:
            return {skip, Found::Kind::too_long, 0};
        case Front::Kind::whole:
            if (front.is_sum_right) {
                return {skip, Found::Kind::message, front.length};
            }
            skip += front.length;
            break;
        case Front::Kind::none:
            ++skip;
            break;
        }
    }
    return {skip, Found::Kind::nothing, 0};
}

} // namespace session_model
