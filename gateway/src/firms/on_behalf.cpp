#include "firms/on_behalf.h"

#include "common/frame.h"

#include <fmt/format.h>

namespace gateway {

namespace {

std::string frame_of(std::string_view type, const Author &author, std::string_view body) {
    return framed(fmt::format("35={1}{0}49={2}{0}56=VENUE{0}34={3}{0}52={4}{0}50={5}{0}{6}", soh,
                              type, author.firm, author.number, author.moment, author.trader,
                              body));
}

} // namespace

std::string cancel_of_all(const Author &author) {
    return frame_of("Z", author, fmt::format("298=4{}", soh));
}

std::string cancel_of(const Author &author, std::string_view quote) {
    return frame_of("Z", author, fmt::format("298=5{0}117={1}{0}", soh, quote));
}

std::string pass_of(const Author &author, std::string_view request) {
    return frame_of(
        "AJ", author,
        fmt::format("693=gateway-{1}{0}694=6{0}131={2}{0}", soh, author.number, request));
}

} // namespace gateway
