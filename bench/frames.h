// Frames of FIXT.1.1 for the measurements.
#pragma once

#include <cstdio>
#include <string>

// The frame of a body: BeginString (8) and BodyLength (9) in front of it, and CheckSum (10) behind it.
inline std::string framed(const std::string& body) {
    std::string front = "8=FIXT.1.1\x01" "9=" + std::to_string(body.size()) + "\x01" + body;
    unsigned sum = 0;
    for (unsigned char byte : front) sum += byte;
    char tail[8];
    std::snprintf(tail, sizeof tail, "10=%03u", sum % 256);
    return front + tail + "\x01";
}
