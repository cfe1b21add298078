#include "cases.h"
#include "parts.h"

#include <cstdio>
#include <map>
#include <set>
#include <sstream>

namespace {

Raw fields_of(const std::string &frame) {
    Raw fields;
    std::istringstream stream(frame);
    for (std::string field; std::getline(stream, field, '\001');) {
        const size_t equals = field.find('=');
        const int tag = std::stoi(field.substr(0, equals));
        if (tag != 8 && tag != 9 && tag != 10) {
            fields.push_back({tag, field.substr(equals + 1)});
        }
    }
    return fields;
}

// One frame of each message that was seen: of each list of tags.
std::vector<Raw> shapes_of(const std::vector<std::string> &frames) {
    std::map<std::string, Raw> shapes;
    for (const std::string &frame : frames) {
        const Raw fields = fields_of(frame);
        std::string tags = fields[0].second;
        for (const auto &field : fields) {
            tags += " " + std::to_string(field.first);
        }
        shapes.insert({tags, fields});
    }
    std::vector<Raw> all;
    for (const auto &shape : shapes) {
        all.push_back(shape.second);
    }
    return all;
}

class Planter {
public:
    explicit Planter(const Dictionary &dictionary) : dictionary(dictionary) {}

    void plant_in(const Raw &fields) {
        Raw strange = fields;
        strange.push_back({9999, "1"});
        find("a field out of the dictionary", strange);
        strange.back() = {40, "1"};
        find("a field out of the dictionary", strange);
        strange.back() = fields[0].second == "3" ? Raw::value_type{297, "0"}
                                                 : Raw::value_type{45, "1"};
        find("a field of another message", strange);
        for (size_t index = 0; index < fields.size(); ++index) {
            plant_at(fields, index);
        }
    }

    const std::map<std::string, int> &counts() const { return found; }

private:
    void plant_at(const Raw &fields, size_t index) {
        const int tag = fields[index].first;
        Raw changed = fields;
        changed[index].second = "";
        find("a field without a value", changed);
        if (dictionary.fields().hasFieldValue(tag)) {
            changed[index].second = "7";
            if (!dictionary.fields().isFieldValue(tag, "7")) {
                find("an unlisted value", changed);
            }
            changed[index].second = "QQ";
            find("an unlisted value", changed);
        }
        if (is_required(fields[0].second, tag) && index > 0) {
            changed = fields;
            changed.erase(changed.begin() + index);
            find("a required field left out", changed);
        }
        changed = fields;
        changed.insert(changed.begin() + index, fields[index]);
        // A second MsgType is not told from the first by QuickFIX's reader of types.
        if (index > 0) {
            find("a field twice", changed);
        }
    }

    // Whether every message of the type, or every entry of its group, has the field.
    bool is_required(const std::string &type, int tag) const {
        static const std::set<int> header = {35, 49, 56, 34, 52};
        static const std::set<int> entry = {447, 448, 452};
        const FIX::DataDictionary &all = dictionary.fields();
        int first = 0;
        const FIX::DataDictionary *group = nullptr;
        const bool grouped = all.getGroup(type, 146, first, group)
                             && group->isRequiredField(type, tag);
        return header.count(tag) || entry.count(tag) || all.isRequiredField(type, tag) || grouped;
    }

    void find(const std::string &what, const Raw &fields) {
        const std::string frame = framed(fields);
        if (dictionary.judge(frame).lawful) {
            fail(what + " is not found: " + with_bars(frame));
        }
        found[what] += 1;
    }

    const Dictionary &dictionary;
    std::map<std::string, int> found;
};

// Whether some frame is refused by a dictionary of this text.
bool is_noticed(const std::string &text, const std::vector<std::string> &frames) {
    try {
        const Dictionary changed(text);
        for (const std::string &frame : frames) {
            if (!changed.judge(frame).lawful) {
                return true;
            }
        }
        return false;
    } catch (const FIX::ConfigError &e) {
        return true;
    }
}

std::string replaced(std::string line, const std::string &from, const std::string &to) {
    const size_t at = line.find(from);
    return at == std::string::npos ? line : line.replace(at, from.size(), to);
}

// The text with one of its lines changed.
std::string with_line(const std::vector<std::string> &lines, size_t index,
                      const std::string &line) {
    std::string text;
    for (size_t other = 0; other < lines.size(); ++other) {
        text += (other == index ? line : lines[other]) + "\n";
    }
    return text;
}

// ApplSeqNum, TransactTime and TradeID are put into messages of the venue by the gateway, and so is
// Text, but for the name of a refused hit; and BusinessMessageReject is the gateway's own: no frame of
// the venue's needs them. tests/gateway and tests/limits have firms that do.
bool is_gateways(const std::string &message, const std::string &line) {
    const auto names = [&](const char *field) { return line.find(field) != std::string::npos; };
    const auto is_of = [&](const char *name) { return message.find(name) != std::string::npos; };
    return is_of("\"BusinessMessageReject\"") || names("\"ApplSeqNum\"")
           || names("\"TransactTime\"") || names("\"TradeID\"")
           || (names("\"Text\"") && is_of("\"QuoteRequestReject\""));
}

// A listed value that stands in no frame of the venue's: BusinessMessageReject, and its reasons.
bool is_gateways_value(const std::string &field, const std::string &line) {
    return line.find("\"BUSINESS_MESSAGE_REJECT\"") != std::string::npos
           || field.find("\"BusinessRejectReason\"") != std::string::npos;
}

// Each field of a message taken out, each listed value taken out, each field that may be left out
// made required: some lawful frame has to be refused then, so the dictionary has nothing that no
// message uses. QuickFIX knows the fields of headers itself.
int plant_in_text(const std::string &text, const std::vector<std::string> &frames) {
    std::vector<std::string> lines;
    std::istringstream stream(text);
    for (std::string line; std::getline(stream, line);) {
        lines.push_back(line);
    }
    int planted = 0;
    bool bodies = false;
    std::string message, field; // the lines that begin those at hand
    const auto find = [&](size_t index, const std::string &line) {
        if (!is_noticed(with_line(lines, index, line), frames)) {
            fail("no frame needs line " + std::to_string(index + 1)
                 + " of the dictionary, or it may be changed to '" + line + "'");
        }
        planted += 1;
    };
    for (size_t index = 0; index < lines.size(); ++index) {
        const std::string &line = lines[index];
        bodies = (bodies || line.find("<messages>") != std::string::npos)
                 && line.find("</messages>") == std::string::npos;
        if (line.find("<message name=") != std::string::npos) {
            message = line;
        }
        if (line.find("<field number=") != std::string::npos) {
            field = line;
        }
        const bool member = line.find("<field name=") != std::string::npos
                            || line.find("<component name=") != std::string::npos;
        if (bodies && is_gateways(message, line)) {
            continue;
        }
        if (bodies && member) {
            find(index, "");
        }
        if (bodies && line.find("required=\"N\"") != std::string::npos) {
            find(index, replaced(line, "required=\"N\"", "required=\"Y\""));
        }
        const size_t value = line.find("<value enum=\"");
        if (value != std::string::npos && !is_gateways_value(field, line)) {
            const size_t begin = value + 13;
            find(index, std::string(line).replace(begin, line.find('"', begin) - begin, "~"));
        }
    }
    return planted;
}

}  // namespace

void plant_faults(const Dictionary &dictionary, const std::string &text, const Traffic &traffic) {
    std::vector<std::string> frames = traffic.from_venue;
    frames.insert(frames.end(), traffic.to_venue.begin(), traffic.to_venue.end());
    Planter planter(dictionary);
    const std::vector<Raw> shapes = shapes_of(frames);
    for (const Raw &shape : shapes) {
        if (!dictionary.judge(framed(shape)).lawful) {
            fail("a frame to be changed is refused: " + with_bars(framed(shape)));
        }
        planter.plant_in(shape);
    }
    std::printf("planted in frames of %zu shapes, and found:", shapes.size());
    const char *between = " ";
    for (const auto &count : planter.counts()) {
        std::printf("%s%s %d", between, count.first.c_str(), count.second);
        between = ", ";
    }
    const int planted = plant_in_text(text, frames);
    std::printf("\nplanted in the dictionary, and found by %zu lawful frames: %d\n", frames.size(),
                planted);
}
