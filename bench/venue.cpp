// A venue's day of auctions: an investor asks two dealers, each quotes and quotes again in the place of its first quote, and
// the investor hits the second dealer's last quote.
//
//     venue day AUCTIONS [in | hex]        prints it, as a configuration and step lines for `replay`: each message field by
//                                          field, or its frame byte by byte or digit by digit
//     venue parse AUCTIONS ROUNDS [SENT]   QuickFIX parses the frames of its messages, with its checks of length and sum, and
//                                          those that the venue sent for them, where a file of them is given
//     venue serve AUCTIONS ROUNDS SENT     QuickFIX parses the frames that come, and builds and writes those that were sent:
//                                          what no venue on QuickFIX goes below
#include "frames.h"

#include <quickfix/Message.h>

#include <algorithm>
#include <cstdlib>
#include <fstream>
#include <string>
#include <utility>
#include <vector>

// A message of a firm: its type, its sender and trader, its number, and the fields behind the header.
struct Sent {
    std::string type, firm, trader;
    int number;
    std::string fields;
};

static std::string request(int auction, const std::string& bar) {
    std::string fields = "131=q" + std::to_string(auction) + bar + "146=1" + bar + "48=BONDA0000001" + bar + "22=4" + bar + "54=1" +
                         bar + "38=2000000" + bar + "126=20250314-17:00:00" + bar + "453=2";
    for (const char* dealer : {"DLR1", "DLR2"}) fields += bar + "448=" + dealer + bar + "447=D" + bar + "452=35";
    return fields;
}

static std::string quote(int auction, int number, const char* price, const std::string& bar) {
    return "117=a" + std::to_string(number) + bar + "131=R" + std::to_string(auction) + bar + "48=BONDA0000001" + bar + "22=4" + bar +
           "133=" + price;
}

// Each dealer's quotes are shown to the investor as Q1, Q2 .. in the order of their posts: four an auction.
static std::string hit(int auction, const std::string& bar) {
    return "693=h" + std::to_string(auction) + bar + "694=1" + bar + "117=Q" + std::to_string(4 * auction);
}

static std::vector<Sent> auction(int number, const std::string& bar) {
    std::vector<Sent> sent;
    sent.push_back({"R", "INV1", "T8", 2 * number - 1, request(number, bar)});
    for (const char* dealer : {"DLR1", "DLR2"})
        for (int again = 0; again < 2; ++again)
            sent.push_back({"S", dealer, dealer[3] == '1' ? "T1" : "T2", 2 * number - 1 + again,
                            quote(number, 2 * number - 1 + again, again == 0 ? "99.5" : "99.4375", bar)});
    sent.push_back({"AJ", "INV1", "T8", 2 * number, hit(number, bar)});
    return sent;
}

static std::string frame(const Sent& one) {
    return framed("35=" + one.type + "\x01" "49=" + one.firm + "\x01" "56=VENUE\x01" "34=" + std::to_string(one.number) +
                  "\x01" "52=20250314-09:00:10.000\x01" "50=" + one.trader + "\x01" + one.fields + "\x01");
}

static std::string digits_of(const std::string& bytes) {
    std::string digits;
    for (const char byte : bytes) {
        digits += "0123456789abcdef"[(byte >> 4) & 15];
        digits += "0123456789abcdef"[byte & 15];
    }
    return digits;
}

// A message as a line of steps: `say`, `in` or `hex`.
static std::string line(const Sent& one, const std::string& how) {
    const std::string behind = " " + one.firm + " ";
    if (how == "say") return how + behind + one.trader + " 09:00:10 " + one.type + " " + one.fields;
    std::string bytes = frame(one);
    if (how == "hex") return how + behind + "09:00:10 " + digits_of(bytes);
    std::replace(bytes.begin(), bytes.end(), '\x01', '|');
    return how + behind + "09:00:10 " + bytes;
}

static void print(int auctions, const std::string& how) {
    std::printf("version = 1\ndate = \"20250314\"\n[[bond]]\nid = \"BONDA0000001\"\n");
    for (int dealer = 1; dealer <= 2; ++dealer)
        std::printf("[[dealer]]\nname = \"DLR%d\"\ntraders = [\"T%d\"]\nquotes = 4096\nexposure = 1000000000000\n", dealer, dealer);
    std::printf("[[investor]]\nname = \"INV1\"\ntraders = [\"T8\"]\nrequests = 1024\nopen = 1024\nquantity = 5000000\n%%%%\n");
    for (int number = 1; number <= auctions; ++number)
        for (const Sent& one : auction(number, how == "say" ? "|" : "\x01")) {
            std::printf("%s\n", line(one, how).c_str());
            std::printf("turn %s %d\n", one.firm.c_str(), one.type == "S" ? 2 : 4);
        }
}

// The frames that `replay --frames` printed: each behind the name of its firm and a space, with bars for SOH.
static std::vector<std::string> printed(const char* path) {
    std::vector<std::string> frames;
    std::ifstream lines(path);
    for (std::string line; std::getline(lines, line);) {
        std::string bytes = line.substr(line.find(' ') + 1);
        std::replace(bytes.begin(), bytes.end(), '|', '\x01');
        frames.push_back(bytes);
    }
    return frames;
}

static volatile bool sink;

static void parse(const std::vector<std::string>& frames) {
    for (const std::string& bytes : frames) {
        FIX::Message message(bytes, true);
        sink = message.getHeader().isSetField(49);
    }
}

// The fields of a message to be sent, those of its header first; length and sum are the library's own.
struct Fields {
    std::vector<std::pair<int, std::string>> header, body;
};

static bool is_of_header(int tag) {
    for (int one : {35, 49, 56, 34, 52, 50, 57})
        if (tag == one) return true;
    return false;
}

static Fields fields_of(const std::string& frame) {
    Fields fields;
    for (std::size_t at = 0; at < frame.size();) {
        const std::size_t equals = frame.find('=', at), end = frame.find('\x01', equals);
        const int tag = std::atoi(frame.c_str() + at);
        std::string value = frame.substr(equals + 1, end - equals - 1);
        at = end + 1;
        if (tag == 8 || tag == 9 || tag == 10) continue;
        (is_of_header(tag) ? fields.header : fields.body).emplace_back(tag, std::move(value));
    }
    return fields;
}

static std::string written(const Fields& fields) {
    FIX::Message message;
    message.getHeader().setField(8, "FIXT.1.1");
    for (const auto& field : fields.header) message.getHeader().setField(field.first, field.second);
    // A field of a repeating group stands more than once: it is added, not written over.
    for (const auto& field : fields.body) message.setField(FIX::FieldBase(field.first, field.second), false);
    return message.toString();
}

static void write(const std::vector<Fields>& messages) {
    for (const Fields& fields : messages) sink = written(fields).empty();
}

// What the library writes is the frame that was sent, but for the order of the fields of a body, which it sorts by their tags.
static bool is_written_back(const std::vector<std::string>& frames, const std::vector<Fields>& messages) {
    for (std::size_t at = 0; at < frames.size(); ++at)
        if (written(messages[at]).size() != frames[at].size()) return false;
    return true;
}

static int serve(int rounds, const std::vector<std::string>& come, const std::vector<std::string>& sent) {
    std::vector<Fields> messages;
    for (const std::string& frame : sent) messages.push_back(fields_of(frame));
    if (!is_written_back(sent, messages)) return 1;
    for (int round = 1; round < rounds; ++round) {
        parse(come);
        write(messages);
    }
    return 0;
}

int main(int count, char** words) {
    const std::string what = count > 2 ? words[1] : "";
    const int auctions = count > 2 ? std::atoi(words[2]) : 0, rounds = count > 3 ? std::atoi(words[3]) : 0;
    if (what == "day" && count <= 4) {
        print(auctions, count == 4 ? words[3] : "say");
        return 0;
    }
    std::vector<std::string> frames;
    for (int number = 1; number <= auctions; ++number)
        for (const Sent& one : auction(number, "\x01")) frames.push_back(frame(one));
    if (what == "serve" && count == 5) return serve(rounds, frames, printed(words[4]));
    if (what != "parse" || count < 4 || count > 5) return 2;
    if (count == 5)
        for (std::string& one : printed(words[4])) frames.push_back(std::move(one));
    for (int round = 1; round < rounds; ++round) parse(frames);
    return 0;
}
