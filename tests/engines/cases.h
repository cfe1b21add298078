// The session checks as cases: a message with one fault, how the venue rejects it, and what
// QuickFIX says of it by the dictionary.
#ifndef CASES_H
#define CASES_H

#include <string>
#include <utility>
#include <vector>

// Fields of a message in their order, MsgType first.
using Raw = std::vector<std::pair<int, std::string>>;

// The frame of these fields.
std::string framed(const Raw &fields);

// A fault by its RefTagID (371) and SessionRejectReason (373).
struct Fault {
    int tag;
    int reason;
};

// No fault of the session: the venue answers by the rules of the market, the dictionary says
// nothing.
const Fault NONE = {0, 0};

// The message is dropped, and not answered.
const Fault DROPPED = {-1, 0};

struct Case {
    std::string name;
    std::string firm;
    // MsgSeqNum is written by who sends the case, where no field 34 stands here.
    Raw fields;
    Fault venue;
    Fault dictionary;
};

// Each tag of each table of the session checks, with each of its faults.
std::vector<Case> table_cases();

// What is no fault of a single tag: the party group, MsgSeqNum, and what the venue takes though the
// dictionary does not have it.
std::vector<Case> other_cases();

#endif
