// Draws from a seed.
#ifndef SESSIONS_EVENTS_DRAW_H
#define SESSIONS_EVENTS_DRAW_H

#include <cstdint>
#include <initializer_list>
#include <random>
#include <string>
#include <vector>

namespace sessions {

class Draw {
  public:
    explicit Draw(std::uint32_t seed) : random_(seed) { wildness_ = one_of({1U, 3U, 10U}); }

    // 0 up to below a number.
    unsigned below(unsigned count) { return static_cast<unsigned>(random_() % count); }
    // So many times of a hundred.
    bool often(unsigned percent) { return below(100) < percent; }
    // The same of what no engine does: on calm days a tenth of it.
    bool ill(unsigned percent) { return below(1000) < percent * wildness_; }

    template <typename What> What one_of(std::initializer_list<What> all) {
        return *(all.begin() + below(static_cast<unsigned>(all.size())));
    }
    std::string text_of(const std::vector<std::string> &all) {
        return all[below(static_cast<unsigned>(all.size()))];
    }

  private:
    std::mt19937 random_;
    unsigned wildness_ = 10;
};

} // namespace sessions

#endif
