// A day of messages that QuickFIX builds, and what each firm has to be sent for them.
#ifndef DAY_H
#define DAY_H

#include "dictionary.h"
#include "venue.h"

#include <map>
#include <string>
#include <utility>
#include <vector>

// Fields of a body, by tag and value, in any order. Those of groups stand among the others.
using Fields = std::vector<std::pair<int, std::string>>;

// A time of the day, `HH:MM:SS`.
FIX::UtcTimeStamp moment(const std::string &time);

class Day {
public:
    explicit Day(const Dictionary &dictionary) : dictionary(dictionary) {}

    // A message comes from the firm, with the next number. Without ApplVerID (1128), which
    // QuickFIX's types set and which is no field of the venue's; and with it.
    void send(const std::string &firm, const std::string &time, FIX::Message message);
    void send_with_version(const std::string &firm, const std::string &time, FIX::Message message);

    void turn(const std::string &actor, int times);
    void sweep(const std::string &investor, int number, const std::string &time);

    // The firm's next message is to be of this type, with these fields behind the header and no
    // others.
    void expect(const std::string &firm, const std::string &type, const Fields &fields);

    // Runs the day and looks at all that each firm was sent.
    void run(const Venue &venue, Traffic &traffic) const;

    int sent() const;
    int expected() const;

private:
    struct Answer {
        std::string type;
        Fields fields;
    };

    void add(const std::string &firm, const std::string &time, FIX::Message &message);
    void look_at(const std::string &firm, size_t index, const std::string &frame) const;

    const Dictionary &dictionary;
    std::map<std::string, int> numbers;
    std::map<std::string, std::vector<Answer>> answers;
    std::vector<std::string> steps;
    std::vector<std::string> frames;
};

#endif
