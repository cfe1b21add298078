#include "day.h"

#include <quickfix/Fields.h>

#include <algorithm>

namespace {

const std::map<std::string, std::string> TRADERS = {
    {"DLR1", "T1"}, {"DLR2", "T2"}, {"DLR3", "T3"}, {"INV1", "T8"}, {"INV2", "T9"}};

// The fields of a message or an entry of a group, with those of the groups within.
void gather(const FIX::FieldMap &map, Fields &fields) {
    for (const FIX::FieldBase &field : map) {
        fields.push_back({field.getTag(), field.getString()});
    }
    for (auto group = map.g_begin(); group != map.g_end(); ++group) {
        for (const FIX::FieldMap *entry : group->second) {
            gather(*entry, fields);
        }
    }
}

std::string text_of(Fields fields) {
    std::sort(fields.begin(), fields.end());
    std::string text;
    for (const auto &field : fields) {
        text += std::to_string(field.first) + "=" + field.second + "|";
    }
    return text;
}

}  // namespace

FIX::UtcTimeStamp moment(const std::string &time) {
    return FIX::UtcTimeStampConvertor::convert("20250314-" + time);
}

void Day::send(const std::string &firm, const std::string &time, FIX::Message message) {
    message.getHeader().removeField(FIX::FIELD::ApplVerID);
    add(firm, time, message);
    const Verdict verdict = dictionary.judge(frames.back());
    if (!verdict.lawful) {
        fail("the dictionary refuses what QuickFIX built: tag " + std::to_string(verdict.tag) + ", "
             + verdict.why + ": " + with_bars(frames.back()));
    }
}

void Day::send_with_version(const std::string &firm, const std::string &time,
                            FIX::Message message) {
    add(firm, time, message);
    if (frames.back().find("\0011128=9\001") == std::string::npos) {
        fail("QuickFIX's types set no ApplVerID: " + with_bars(frames.back()));
    }
    frames.pop_back();
}

void Day::add(const std::string &firm, const std::string &time, FIX::Message &message) {
    FIX::Header &header = message.getHeader();
    numbers[firm] += 1;
    header.setField(FIX::SenderCompID(firm));
    header.setField(FIX::SenderSubID(TRADERS.at(firm)));
    header.setField(FIX::TargetCompID("VENUE"));
    header.setField(FIX::MsgSeqNum(numbers[firm]));
    header.setField(FIX::SendingTime(moment(time), 3));
    frames.push_back(message.toString());
    steps.push_back("in " + firm + " " + time + " " + with_bars(frames.back()));
}

void Day::turn(const std::string &actor, int times) {
    steps.push_back("turn " + actor + " " + std::to_string(times));
}

void Day::sweep(const std::string &investor, int number, const std::string &time) {
    steps.push_back("expire " + investor + " " + std::to_string(number) + " " + time);
}

void Day::expect(const std::string &firm, const std::string &type, const Fields &fields) {
    answers[firm].push_back(Answer{type, fields});
}

void Day::run(const Venue &venue, Traffic &traffic) const {
    std::map<std::string, size_t> came;
    for (const Sent &sent : venue.replay(steps)) {
        look_at(sent.firm, came[sent.firm], sent.frame);
        came[sent.firm] += 1;
        traffic.from_venue.push_back(sent.frame);
    }
    for (const auto &firm : answers) {
        if (came[firm.first] != firm.second.size()) {
            fail(firm.first + " was sent " + std::to_string(came[firm.first]) + " messages, not "
                 + std::to_string(firm.second.size()));
        }
    }
    traffic.to_venue.insert(traffic.to_venue.end(), frames.begin(), frames.end());
}

void Day::look_at(const std::string &firm, size_t index, const std::string &frame) const {
    const auto wanted = answers.find(firm);
    const std::string which = firm + "'s message " + std::to_string(index + 1);
    if (wanted == answers.end() || index >= wanted->second.size()) {
        fail(which + " was not expected: " + with_bars(frame));
    }
    const Verdict verdict = dictionary.judge(frame);
    if (!verdict.lawful) {
        fail(which + " is refused, tag " + std::to_string(verdict.tag) + ": " + with_bars(frame));
    }
    const FIX::Message message = dictionary.read(frame);
    const FIX::Header &header = message.getHeader();
    FIX::MsgSeqNum number;
    header.getField(number);
    if (header.getField(FIX::FIELD::SenderCompID) != "VENUE"
        || header.getField(FIX::FIELD::TargetCompID) != firm
        || number.getValue() != static_cast<int>(index + 1)) {
        fail(which + " has another header: " + with_bars(frame));
    }
    const Answer &answer = wanted->second[index];
    Fields fields;
    gather(message, fields);
    if (header.getField(FIX::FIELD::MsgType) != answer.type
        || text_of(fields) != text_of(answer.fields)) {
        fail(which + " is " + with_bars(frame) + ", not " + answer.type + " "
             + text_of(answer.fields));
    }
}

int Day::sent() const {
    int all = 0;
    for (const auto &firm : numbers) {
        all += firm.second;
    }
    return all;
}

int Day::expected() const {
    size_t all = 0;
    for (const auto &firm : answers) {
        all += firm.second.size();
    }
    return static_cast<int>(all);
}
