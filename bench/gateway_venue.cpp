// In the venue's place, where the gateway's own part of a time is wanted: it reads the lines of
// `rfq_venue live --frames --marks` for one request of INV1 to DLR1 and its quotes, accepts each,
// and judges nothing.
#include <cstdio>
#include <iostream>
#include <map>
#include <numeric>
#include <string>

namespace {

// Of a capital hexadecimal digit.
int number_of(char digit) {
    return digit <= '9' ? digit - '0' : digit - 'A' + 10;
}

std::string bytes_of(const std::string &digits) {
    std::string bytes;
    bytes.reserve(digits.size() / 2);
    for (std::size_t at = 0; at + 1 < digits.size(); at += 2)
        bytes += static_cast<char>(16 * number_of(digits[at]) + number_of(digits[at + 1]));
    return bytes;
}

std::string value_in(const std::string &message, const std::string &tag) {
    const std::string mark = "\x01" + tag + "=";
    const std::size_t begin = message.find(mark);
    if (begin == std::string::npos)
        return {};
    const std::size_t from = begin + mark.size();
    return message.substr(from, message.find('\x01', from) - from);
}

class Venue {
  public:
    std::string answer(const std::string &line) {
        if (line.rfind("hex ", 0) != 0)
            return {};
        const std::size_t firm_end = line.find(' ', 4);
        const std::size_t time_end = line.find(' ', firm_end + 1);
        const std::string firm = line.substr(4, firm_end - 4);
        time_ = line.substr(firm_end + 1, time_end - firm_end - 1);
        const std::string message = bytes_of(line.substr(time_end + 1));
        const std::string type = value_in(message, "35");
        if (type == "R")
            return asked(firm, message);
        return type == "S" ? quoted(firm, message) : std::string();
    }
    void begin(const std::string &date) { date_ = date; }

  private:
    std::string asked(const std::string &firm, const std::string &message) {
        return frame(firm, "AI", "131=" + value_in(message, "131") + "|297=0|") +
               frame("DLR1", "R",
                     "131=R1|146=1|55=[N/A]|48=BONDA0000001|22=4|54=1|38=2000000|126=" +
                         value_in(message, "126") + "|453=1|448=INV1|447=D|452=13|");
    }
    std::string quoted(const std::string &firm, const std::string &message) {
        return frame(firm, "AI",
                     "131=" + value_in(message, "131") + "|117=" + value_in(message, "117") +
                         "|297=0|") +
               frame("INV1", "S",
                     "131=A1|117=Q1|55=[N/A]|48=BONDA0000001|22=4|54=1|133=99.5|135=2000000|"
                     "537=1|453=1|448=DLR1|447=D|452=35|");
    }
    std::string frame(const std::string &firm, const std::string &type, const std::string &rest) {
        const std::string body = "35=" + type + "|49=VENUE|56=" + firm +
                                 "|34=" + std::to_string(++numbers_[firm]) + "|52=" + date_ + "-" +
                                 time_ + "|" + rest;
        const std::string head = "8=FIXT.1.1|9=" + std::to_string(body.size()) + "|" + body;
        const unsigned sum =
            std::accumulate(head.begin(), head.end(), 0u, [](unsigned so_far, char c) {
                return so_far + (c == '|' ? 1u : static_cast<unsigned char>(c));
            });
        char trailer[16];
        std::snprintf(trailer, sizeof trailer, "10=%03u|", sum % 256);
        return firm + " " + head + trailer + "\n";
    }

    std::string date_, time_;
    std::map<std::string, int> numbers_;
};

} // namespace

int main() {
    std::ios::sync_with_stdio(false);
    Venue venue;
    bool has_begun = false;
    std::size_t count = 0;
    for (std::string line; std::getline(std::cin, line);) {
        ++count;
        if (!has_begun) {
            if (line.rfind("date = \"", 0) == 0)
                venue.begin(line.substr(8, 8));
            has_begun = line == "%%";
            continue;
        }
        const std::string text = venue.answer(line) + "done " + std::to_string(count) + "\n";
        std::cout << text << std::flush;
    }
}
