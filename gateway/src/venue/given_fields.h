// What the gateway looks at in a message that the venue gave.
#ifndef GATEWAY_VENUE_GIVEN_FIELDS_H
#define GATEWAY_VENUE_GIVEN_FIELDS_H

#include <string_view>

namespace gateway {

// The first value of each of these fields, empty without one: views of the frame, which is read
// once for all that look at it.
struct GivenFields {
    explicit GivenFields(std::string_view frame);

    std::string_view type;     // 35
    std::string_view number;   // 34
    std::string_view bond;     // 48
    std::string_view moment;   // 52
    std::string_view quote;    // 117
    std::string_view request;  // 131
    std::string_view status;   // 297
    std::string_view reason;   // 300
    std::string_view dealers;  // 453
    std::string_view response; // 693

  private:
    void take(std::string_view field);
    // Where the value of a tag belongs; null of one that nobody looks at.
    std::string_view *value_of(std::string_view tag);
};

} // namespace gateway

#endif
