#include "cases.h"
#include "parts.h"

#include <cstdio>
#include <map>

namespace {

struct Counts {
    int both = 0;
    int venue = 0;
    int dictionary = 0;
    int otherwise = 0;
    int neither = 0;
};

std::string text_of(Fault fault) {
    return fault.tag == 0 ? "none"
                          : std::to_string(fault.tag) + "/" + std::to_string(fault.reason);
}

// The fields of a case with its MsgSeqNum, behind TargetCompID where none stands.
Raw numbered(const Case &one, const std::string &number) {
    Raw fields = one.fields;
    for (const auto &field : fields) {
        if (field.first == 34) {
            return fields;
        }
    }
    fields.insert(fields.begin() + 1, {34, number});
    return fields;
}

std::string first_of(const Raw &fields, int tag) {
    for (const auto &field : fields) {
        if (field.first == tag) {
            return field.second;
        }
    }
    return "";
}

// Fails unless the answer is the Reject of the case's fault, or no Reject where it has none.
void look_at_answer(const Dictionary &dictionary, const Case &one, const Raw &fields,
                    const std::string &frame) {
    const Verdict verdict = dictionary.judge(frame);
    if (!verdict.lawful) {
        fail(one.name + ": the answer is refused, " + verdict.why + ": " + with_bars(frame));
    }
    const FIX::Message answer = dictionary.read(frame);
    const bool rejected = answer.getHeader().getField(FIX::FIELD::MsgType) == "3";
    if (!rejected && one.venue.tag != 0) {
        fail(one.name + ": not rejected: " + with_bars(frame));
    }
    if (!rejected) {
        return;
    }
    const Fault fault = {std::stoi(answer.getField(FIX::FIELD::RefTagID)),
                         std::stoi(answer.getField(FIX::FIELD::SessionRejectReason))};
    if (fault.tag != one.venue.tag || fault.reason != one.venue.reason) {
        fail(one.name + ": rejected with " + text_of(fault) + ", not " + text_of(one.venue));
    }
    if (answer.getField(FIX::FIELD::RefSeqNum) != first_of(fields, 34)
        || answer.getField(FIX::FIELD::RefMsgType) != first_of(fields, 35)) {
        fail(one.name + ": the Reject refers to another message: " + with_bars(frame));
    }
}

// Fails unless QuickFIX says of the case what was expected. Where it speaks of a message that the
// venue rejects, that is the same tag and the same reason, apart from the cases that say otherwise.
void look_at_verdict(const Dictionary &dictionary, const Case &one, const std::string &frame,
                     Counts &counts) {
    const Verdict verdict = dictionary.judge(frame);
    const Fault says = {verdict.tag, verdict.reason};
    if (verdict.lawful != (one.dictionary.tag == 0) || says.tag != one.dictionary.tag
        || says.reason != one.dictionary.reason) {
        fail(one.name + ": QuickFIX says " + text_of(says) + " (" + verdict.why + "), not "
             + text_of(one.dictionary) + ": " + with_bars(frame));
    }
    const bool same = says.tag == one.venue.tag && says.reason == one.venue.reason;
    counts.both += !verdict.lawful && same;
    counts.venue += verdict.lawful && one.venue.tag != 0;
    counts.dictionary += !verdict.lawful && one.venue.tag == 0;
    counts.otherwise += !verdict.lawful && one.venue.tag > 0 && !same;
    counts.neither += verdict.lawful && one.venue.tag == 0;
}

// What each firm was answered.
using Answers = std::map<std::string, std::vector<std::string>>;

// Sends each case with the next number of its firm, and compares what QuickFIX says of it.
std::vector<Raw> compare_verdicts(const Dictionary &dictionary, const std::vector<Case> &cases,
                                  Traffic &traffic, Counts &counts) {
    std::map<std::string, int> next;
    std::vector<Raw> sent;
    for (const Case &one : cases) {
        sent.push_back(numbered(one, std::to_string(next[one.firm] + 1)));
        // A dropped message uses up no number, nor does one that has another number than the next.
        next[one.firm] += one.venue.tag != DROPPED.tag && one.venue.tag != 34;
        const std::string frame = framed(sent.back());
        if (one.venue.tag != DROPPED.tag) {
            look_at_verdict(dictionary, one, frame, counts);
        }
        if (one.venue.tag == 0 && one.dictionary.tag == 0) {
            traffic.to_venue.push_back(frame);
        }
    }
    return sent;
}

// Compares the answers, one for each message that is not dropped.
void compare_answers(const Dictionary &dictionary, const std::vector<Case> &cases,
                     const std::vector<Raw> &sent, const Answers &answers) {
    std::map<std::string, size_t> taken;
    for (size_t index = 0; index < cases.size(); ++index) {
        const Case &one = cases[index];
        if (one.venue.tag == DROPPED.tag) {
            continue;
        }
        const auto firm = answers.find(one.firm);
        if (firm == answers.end() || taken[one.firm] >= firm->second.size()) {
            fail(one.name + ": no answer");
        }
        look_at_answer(dictionary, one, sent[index], firm->second[taken[one.firm]]);
        taken[one.firm] += 1;
    }
    for (const auto &firm : answers) {
        if (taken[firm.first] != firm.second.size()) {
            fail(firm.first + " was sent more than one answer for each message");
        }
    }
}

}  // namespace

void refuse_messages(const Dictionary &dictionary, const Venue &venue, Traffic &traffic) {
    std::vector<Case> cases = table_cases();
    const std::vector<Case> others = other_cases();
    cases.insert(cases.end(), others.begin(), others.end());

    Counts counts;
    const std::vector<Raw> sent = compare_verdicts(dictionary, cases, traffic, counts);
    std::vector<std::string> steps;
    for (size_t index = 0; index < cases.size(); ++index) {
        steps.push_back("in " + cases[index].firm + " 09:00:00 " + with_bars(framed(sent[index])));
    }
    Answers answers;
    for (const Sent &answer : venue.replay(steps)) {
        answers[answer.firm].push_back(answer.frame);
        traffic.from_venue.push_back(answer.frame);
    }
    compare_answers(dictionary, cases, sent, answers);

    const int judged = counts.both + counts.venue + counts.dictionary + counts.otherwise
                       + counts.neither;
    std::printf("%zu messages at the session checks: %d rejected by the venue and refused by "
                "QuickFIX with the same 371 and 373,\n  %d rejected by the venue alone, %d refused "
                "by the dictionary alone, %d with another tag, %d taken by both, %d dropped\n",
                cases.size(), counts.both, counts.venue, counts.dictionary, counts.otherwise,
                counts.neither, static_cast<int>(cases.size()) - judged);
}
