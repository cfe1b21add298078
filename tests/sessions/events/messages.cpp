#include "messages.h"

#include "../clock.h"
#include "../texts.h"

#include <algorithm>

namespace sessions {

namespace {

constexpr Millis TWO_MINUTES = 120000;
constexpr std::size_t MOST_MESSAGE = 65536;

using Fields = std::vector<std::string>;

std::string number_near(Draw &draw, std::uint64_t number) {
    const std::uint64_t below = number > 2 ? draw.below(3) : 0;
    switch (draw.below(10)) {
    case 0:
        return std::to_string(number - below);
    case 1:
        return std::to_string(number + 1 + draw.below(4));
    case 2:
        return draw.one_of<const char *>({"0", "1", "2", "999999999", "999999990", "1000000000",
                                          "-1", "", "x", " 1", "1.0", "00001"});
    default:
        return std::to_string(number);
    }
}

// MsgSeqNum (34): the expected one as a rule.
std::string drawn_number(Draw &draw, const Scene &scene) {
    const std::uint64_t expected = scene.state.day.expected;
    return draw.ill(25) ? number_near(draw, expected) : std::to_string(expected);
}

// A time near the limits of two minutes and of the day.
std::string drawn_time(Draw &draw, const Scene &scene) {
    static constexpr Millis OFF[] = {TWO_MINUTES, TWO_MINUTES + 1, TWO_MINUTES - 1, 1000, 3600000};
    const Millis off = OFF[draw.below(5)] * (draw.often(50) ? 1 : -1);
    const std::string right = timestamp(MIDNIGHT + scene.moment);
    switch (draw.below(draw.ill(20) ? 8 : 2)) {
    case 0:
        return right;
    case 1:
        return right.substr(0, 17);
    case 2:
    case 3:
        return timestamp(MIDNIGHT + scene.moment + off);
    case 4:
        return right + draw.one_of<const char *>({"1", "123456", "1234567890", "x", "."});
    case 5:
        return right.substr(0, 18 + draw.below(3));
    case 6:
        return draw.one_of<const char *>(
            {"20250313-23:59:59", "20250313-23:59:60", "20250315-00:00:00", "", "20250314-24:00:00",
             "20250314-23:59:60", "20250332-01:01:01", "2025031-01:01:01"});
    default:
        return right.substr(0, 15) + "60";
    }
}

void add_again(Draw &draw, const Scene &scene, Fields &fields) {
    if (!draw.ill(20)) {
        return;
    }
    fields.push_back(field(43, draw.one_of<const char *>({"Y", "Y", "Y", "N", "y", ""})));
    if (!draw.often(15)) {
        fields.push_back(field(122, drawn_time(draw, scene)));
    }
}

// The header: the session's as a rule.
Fields header_of(Draw &draw, const Scene &scene, const std::string &type) {
    Fields fields = {field(35, type), field(49, scene.names.firm), field(56, scene.names.venue),
                     field(34, drawn_number(draw, scene))};
    if (draw.ill(3)) {
        fields[1] = field(49, draw.one_of<const char *>({"DLR2", "", "VENUE"}));
    }
    if (draw.ill(3)) {
        fields[2] = field(56, draw.one_of<const char *>({"OTHER", ""}));
    }
    if (draw.ill(2)) {
        fields.erase(fields.begin() + 1 + draw.below(3));
    }
    if (!draw.ill(2)) {
        fields.push_back(field(52, drawn_time(draw, scene)));
    }
    add_again(draw, scene, fields);
    if (draw.often(5)) {
        fields.push_back(field(97, draw.one_of<const char *>({"Y", "N", ""})));
    }
    if (draw.often(5)) {
        fields.push_back(field(50, "T1"));
    }
    return fields;
}

// The answer to a TestRequest, as a rule to one that was sent.
std::string drawn_test_id(Draw &draw, const Scene &scene) {
    const Line &line = scene.state.line;
    switch (draw.below(8)) {
    case 0:
        return std::to_string(line.first_test);
    case 1:
        return number_near(draw, line.last_test);
    case 2:
        return draw.one_of<std::string>({"", "x", std::string(1024, 'a'), std::string(1025, 'b')});
    default:
        return std::to_string(line.last_test);
    }
}

void add_resend_request(Draw &draw, const Scene &scene, Fields &fields) {
    const std::uint64_t next = scene.state.day.next;
    const auto begin = 1 + draw.below(static_cast<unsigned>(std::min<std::uint64_t>(next, 1000)));
    if (!draw.often(3)) {
        fields.push_back(
            field(7, draw.often(80) ? std::to_string(begin) : number_near(draw, next)));
    }
    if (!draw.often(3)) {
        fields.push_back(
            field(16, draw.often(70) ? "0" : number_near(draw, begin + draw.below(5))));
    }
}

void add_sequence_reset(Draw &draw, const Scene &scene, Fields &fields) {
    const std::uint64_t expected = scene.state.day.expected;
    if (draw.often(70)) {
        fields.push_back(field(123, draw.one_of<const char *>({"Y", "Y", "Y", "N", "x", ""})));
    }
    if (!draw.often(3)) {
        const std::uint64_t next = expected + draw.below(3);
        fields.push_back(
            field(36, draw.often(80) ? std::to_string(next) : number_near(draw, expected)));
    }
}

// A field of the session's where it does not belong.
std::string strange_field(Draw &draw, const Scene &scene) {
    static constexpr int TAGS[] = {7,  8,  9,   10,  16,  34,  35,  36,  43,  49, 52,   56,  57,
                                   97, 98, 108, 112, 122, 123, 141, 553, 789, 50, 1137, 554, 10000};
    const int tag = TAGS[draw.below(sizeof TAGS / sizeof TAGS[0])];
    return field(tag, draw.often(50) ? number_near(draw, scene.state.day.expected)
                                     : draw.one_of<const char *>({"Y", "N", "", "x", "9", "0"}));
}

std::string joined(const Fields &fields) {
    std::string body;
    for (const std::string &one : fields) {
        body += one;
    }
    return body;
}

// Fields in another order, doubled, left out; bytes that are no field.
std::string spoilt_body(Draw &draw, const Scene &scene, Fields fields) {
    const unsigned place = draw.below(static_cast<unsigned>(fields.size()));
    switch (draw.below(8)) {
    case 0:
        fields.push_back(fields[place]);
        break;
    case 1:
        fields.erase(fields.begin() + place);
        break;
    case 2:
        std::swap(fields.front(), fields[place]);
        break;
    case 3:
        fields[place] = draw.one_of<const char *>(
            {"x\x01", "0=1\x01", "1234567890=1\x01", "=1\x01", "\x01", "01=1\x01", "1a=2\x01"});
        break;
    case 4:
        fields.back().pop_back(); // without its SOH
        break;
    case 5:
        fields.front() = field(35, draw.one_of<const char *>({"", "ABCDE", "S-", "ABCD"}));
        break;
    default:
        fields.insert(fields.begin() + place, strange_field(draw, scene));
    }
    return joined(fields);
}

std::string framed_as(const std::string &begin, const std::string &body) {
    std::string frame = field(8, begin) + field(9, std::to_string(body.size())) + body;
    unsigned sum = 0;
    for (const char byte : frame) {
        sum += static_cast<unsigned char>(byte);
    }
    const std::string digits = std::to_string(1000 + sum % 256).substr(1);
    return frame + field(10, digits);
}

std::string on_the_wire(Draw &draw, const Scene &scene, const Fields &fields) {
    const bool is_spoilt = draw.ill(8);
    std::string body = is_spoilt ? spoilt_body(draw, scene, fields) : joined(fields);
    if (draw.ill(2)) {
        const unsigned around = draw.one_of({3950U, 4050U, 65400U, 70000U}) + draw.below(120);
        body += field(5000, std::string(around, 'z'));
    }
    std::string bytes = framed_as(
        draw.ill(2) ? draw.one_of<const char *>({"FIX.4.4", "FIXT.1.2", "x y"}) : "FIXT.1.1", body);
    if (bytes.size() > MOST_MESSAGE) {
        bytes.resize(MOST_MESSAGE);
    }
    return draw.ill(3) ? mutated(draw, bytes) : bytes;
}

} // namespace

std::string mutated(Draw &draw, std::string bytes) {
    for (unsigned i = 0; i <= draw.below(3) && !bytes.empty(); ++i) {
        const unsigned place = draw.below(static_cast<unsigned>(bytes.size()));
        switch (draw.below(4)) {
        case 0:
            bytes[place] = static_cast<char>(draw.below(256));
            break;
        case 1:
            bytes.erase(place, 1 + draw.below(3));
            break;
        case 2:
            bytes.insert(place, 1, static_cast<char>(draw.one_of({'\x01', '=', '0', '8', 'x'})));
            break;
        default:
            bytes[place] = draw.one_of({'\x01', '0', '9', '='});
        }
    }
    return bytes;
}

std::string drawn_logon(Draw &draw, const Scene &scene) {
    Fields fields = header_of(draw, scene, draw.ill(2) ? "0" : "A");
    if (!scene.names.desk.empty() && !draw.often(3)) {
        fields.push_back(field(57, draw.often(90) ? scene.names.desk : "B9"));
    }
    fields.push_back(field(98, !draw.ill(3) ? "0" : number_near(draw, 0)));
    fields.push_back(field(108, draw.often(90)
                                    ? draw.one_of<const char *>({"1", "5", "30"})
                                    : draw.one_of<const char *>({"0", "300", "301", "x", "007"})));
    if (draw.ill(20)) {
        fields.push_back(field(141, draw.one_of<const char *>({"Y", "Y", "N", ""})));
        if (fields.size() > 3 && draw.often(80)) {
            fields[3] = field(34, "1");
        }
    }
    if (draw.ill(40)) {
        fields.push_back(field(789, number_near(draw, scene.state.day.next - draw.below(2))));
    }
    fields.push_back(field(1137, !draw.ill(3) ? "9" : number_near(draw, 9)));
    fields.push_back(field(553, "dlr1"));
    fields.push_back(
        field(554, draw.often(97) ? "secret" : std::string(1024 + draw.below(2), 's')));
    return on_the_wire(draw, scene, fields);
}

std::string drawn_message(Draw &draw, const Scene &scene) {
    const std::string type = draw.one_of<const char *>(
        {"0", "0", "0", "1", "2", "2", "3", "4", "4", "5", "A", "S", "S", "S", "S", "R", "AJ"});
    if (type == "A" && !draw.ill(30)) {
        return drawn_message(draw, scene);
    }
    if (type == "A") {
        return drawn_logon(draw, scene);
    }
    if (type == "5" && !draw.ill(40)) {
        return drawn_message(draw, scene);
    }
    Fields fields = header_of(draw, scene, type);
    if (type == "0" && draw.often(80)) {
        fields.push_back(field(112, drawn_test_id(draw, scene)));
    } else if (type == "1" && !draw.often(5)) {
        fields.push_back(field(112, drawn_test_id(draw, scene)));
    } else if (type == "2") {
        add_resend_request(draw, scene, fields);
    } else if (type == "3") {
        fields.push_back(field(45, number_near(draw, scene.state.day.next)));
    } else if (type == "4") {
        add_sequence_reset(draw, scene, fields);
    } else {
        fields.push_back(field(117, "q" + std::to_string(draw.below(1000))));
    }
    return on_the_wire(draw, scene, fields);
}

std::string drawn_given(Draw &draw) {
    const std::string type = draw.one_of<const char *>({"AI", "AI", "S", "R", "3", "3", "AJ"});
    std::string body = field(35, type) + field(1181, std::to_string(1 + draw.below(100)));
    if (type == "3") {
        body += field(45, "1");
    }
    body += field(297, "0") + field(537, "1");
    if (draw.ill(2)) {
        body += field(58, std::string(3700 + draw.below(200), 'y'));
    }
    const std::string frame = framed(body);
    return draw.ill(2) ? mutated(draw, frame) : frame;
}

std::string drawn_stream(Draw &draw, const Scene &scene) {
    std::string stream;
    for (unsigned i = 0; i < 1 + draw.below(3); ++i) {
        std::string part = drawn_message(draw, scene);
        if (draw.often(30)) {
            part = mutated(draw, part);
        }
        if (draw.often(20)) {
            part.resize(draw.below(static_cast<unsigned>(part.size()) + 1));
        }
        if (draw.often(10)) {
            part = draw.one_of<const char *>({"8=",
                                              "8=FIXT.1.1\x01"
                                              "9=",
                                              "x", "8=8=FIXT.1.1\x01",
                                              "8=FIXT.1.1\x01"
                                              "9=0000005\x01",
                                              "8=FIXT.1.1\x01"
                                              "9=65520\x01",
                                              "8=FIXT.1.1\x01"
                                              "9=65508\x01"}) +
                   part;
        }
        stream += part;
    }
    return stream;
}

} // namespace sessions
