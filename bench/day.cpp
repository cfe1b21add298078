// A dealer's day of quotes on two requests, each of which replaces the one before it on its request: printed as due text
// for `alone`, or its frames parsed by QuickFIX, with its checks of length and sum.
#include "frames.h"

#include <quickfix/Message.h>

#include <cstdlib>
#include <string>
#include <vector>

// The fields of the quote with this number, from 1, behind its header.
static std::string quote(int number, const char* divider) {
    const std::string bar = divider;
    return "117=q" + std::to_string(number) + bar + "131=R" + std::to_string(number % 2 + 1) + bar + "48=BONDA0000001" + bar + "22=4" +
           bar + (number % 4 < 2 ? "133=99.5" : "133=99.50390625");
}

static void print(int quotes) {
    std::printf("date 20250314\ndealer DLR1 4096 4000000 T1\n");
    for (int request = 0; request < 2; ++request)
        std::printf("shown INV1 BONDA0000001 1 2000000 09:05:00 09:00:00\n");
    for (int number = 1; number <= quotes; ++number) std::printf("say T1 09:00:10 S %s\n", quote(number, "|").c_str());
}

static std::string frame(int number) {
    return framed("35=S\x01" "49=DLR1\x01" "56=VENUE\x01" "34=" + std::to_string(number) +
                  "\x01" "52=20250314-09:00:10.000\x01" "50=T1\x01" + quote(number, "\x01") + "\x01");
}

static volatile bool sink;

int main(int count, char** words) {
    if (count != 3) return 2;  // QUOTES ROUNDS: how many quotes the day has, and how often QuickFIX parses them; 0 prints the day
    const int quotes = std::atoi(words[1]), rounds = std::atoi(words[2]);
    if (rounds == 0) {
        print(quotes);
        return 0;
    }
    std::vector<std::string> frames;
    for (int number = 1; number <= quotes; ++number) frames.push_back(frame(number));
    for (int round = 1; round < rounds; ++round)
        for (const std::string& bytes : frames) {
            FIX::Message message(bytes, true);
            sink = message.isSetField(117);
        }
    return 0;
}
