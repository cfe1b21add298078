// Reads a frame of FIXT.1.1 and checks it as a dealer's message: by quote_messages, beside QuickFIX, which parses it
// and checks its length and sum alone.
#include "frames.h"

#include <quickfix/Message.h>

#include <cstdint>
#include <cstdio>
#include <cstdlib>
#include <string>

extern "C" uint32_t quote_messages_read(const uint8_t* bytes, size_t len, uint32_t steps);

// A Quote of 133 bytes, and one with every field of its type.
static std::string quote(bool full) {
    const std::string front = "35=S\x01" "49=DLR1\x01" "56=VENUE\x01" "34=1\x01" "52=20250314-09:00:10.000\x01" "50=T1\x01" "117=a1\x01"
                              "131=R1\x01" "48=BONDA0000001\x01" "22=4\x01";
    return framed(front + (full ? "132=99.25\x01" "133=99.50390625\x01" "134=2000000\x01" "135=2000000\x01" "537=1\x01" "62=20250314-09:05:00\x01"
                                : "133=99.50390625\x01"));
}

static volatile uint32_t sink;

int main(int count, char** words) {
    if (count != 4) return 2;  // READER FRAME ROUNDS: readers 0 the row alone, 1 read_frame, 2 and read_dealer, 3 QuickFIX
    const int reader = std::atoi(words[1]), rounds = std::atoi(words[3]);
    const std::string bytes = quote(std::atoi(words[2]) == 1);
    const uint8_t* at = reinterpret_cast<const uint8_t*>(bytes.data());
    if (reader < 3 && quote_messages_read(at, bytes.size(), reader) != static_cast<uint32_t>(reader)) return 2;
    for (int i = 0; i < rounds; ++i) {
        if (reader < 3) {
            sink = quote_messages_read(at, bytes.size(), reader);
        } else {
            FIX::Message message(bytes, true);
            sink = message.isSetField(117);
        }
    }
    return 0;
}
