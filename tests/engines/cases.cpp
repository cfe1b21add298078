#include "cases.h"

#include <algorithm>
#include <cstdio>
#include <set>

namespace {

enum class Form { Any, Id, Number, Price, Quantity, Moment };

// A value that is of the tag's form and may not stand there; and whether the dictionary has it,
// since it may stand in a message of the other direction.
struct Wrong {
    std::string value;
    bool listed;
};

// A row of a table. It is required always, or only as the other fields of the message are.
enum class Need { Always, Here, No };

struct Rule {
    int tag;
    Form form;
    Need need;
    std::vector<Wrong> wrong;
    int reason;
};

struct Kind {
    std::string name;
    std::string firm;
    std::string trader;
    Raw body;
    std::vector<Rule> rules;
    // Tags of the body that the dictionary has in the group of 146.
    std::vector<int> grouped;
};

const char DAY[] = "20250314";
const char SENT[] = "20250314-09:00:00";

std::vector<Kind> kinds() {
    const std::vector<Wrong> other_source = {{"1", false}, {"04", false}};
    const Rule bond = {48, Form::Id, Need::Always, {}, 0};
    const Rule source = {22, Form::Any, Need::Always, other_source, 5};
    const Raw party = {{453, "1"}, {448, "DLR1"}, {447, "D"}, {452, "35"}};
    Raw request = {{35, "R"}, {131, "A"}, {146, "1"}, {48, "BONDX0000009"}, {22, "4"}, {54, "1"},
                   {38, "2000000"}, {126, "20250314-09:05:00"}};
    request.insert(request.end(), party.begin(), party.end());
    return {
        {"quote", "DLR1", "T1",
         {{35, "S"}, {117, "q"}, {131, "R9"}, {48, "BONDA0000001"}, {22, "4"}, {132, "99.25"},
          {133, "99.5"}, {134, "2000000"}, {135, "2000000"}, {537, "1"},
          {62, "20250314-09:10:00"}},
         {{117, Form::Id, Need::Always, {}, 0}, {131, Form::Id, Need::Always, {}, 0}, bond, source,
          {132, Form::Price, Need::No, {}, 0}, {133, Form::Price, Need::No, {}, 0},
          {134, Form::Quantity, Need::No, {}, 0}, {135, Form::Quantity, Need::No, {}, 0},
          {537, Form::Number, Need::No, {}, 0}, {62, Form::Moment, Need::No, {}, 0}},
         {}},
        {"cancel", "DLR1", "T1",
         {{35, "Z"}, {298, "5"}, {117, "x"}},
         {{298, Form::Number, Need::Always, {}, 0}, {117, Form::Id, Need::Here, {}, 0}},
         {}},
        {"cancel of all", "DLR1", "T1",
         {{35, "Z"}, {298, "4"}, {117, "x"}},
         {{298, Form::Number, Need::Always, {}, 0}, {117, Form::Id, Need::No, {}, 0}},
         {}},
        {"decline", "DLR1", "T1",
         {{35, "AG"}, {131, "R9"}, {658, "10"}},
         {{131, Form::Id, Need::Always, {}, 0},
          {658, Form::Number, Need::Always, {{"99", true}, {"1", true}, {"11", false}}, 5}},
         {}},
        {"request", "INV1", "T8", request,
         {{131, Form::Id, Need::Always, {}, 0},
          {146, Form::Number, Need::Always, {{"2", false}, {"0", false}}, 5}, bond, source,
          {54, Form::Any, Need::Always, {{"3", false}, {"B", false}}, 5},
          {38, Form::Quantity, Need::Always, {}, 0}, {126, Form::Moment, Need::Always, {}, 0}},
         {48, 22, 54, 38, 126}},
        {"hit", "INV1", "T8",
         {{35, "AJ"}, {693, "h"}, {694, "1"}, {117, "Q9"}, {131, "A"}},
         {{693, Form::Id, Need::Always, {}, 0},
          {694, Form::Number, Need::Always, {{"2", false}, {"3", true}, {"5", true}}, 5},
          {117, Form::Id, Need::Here, {}, 0}, {131, Form::Id, Need::No, {}, 0}},
         {}},
        {"pass", "INV1", "T8",
         {{35, "AJ"}, {693, "p"}, {694, "6"}, {117, "Q9"}, {131, "Z"}},
         {{693, Form::Id, Need::Always, {}, 0},
          {694, Form::Number, Need::Always, {{"2", false}, {"4", true}}, 5},
          {117, Form::Id, Need::No, {}, 0}, {131, Form::Id, Need::Here, {}, 0}},
         {}},
    };
}

Raw whole(const Kind &kind) {
    Raw fields = {kind.body[0], {49, kind.firm}, {56, "VENUE"}, {52, SENT}, {50, kind.trader}};
    fields.insert(fields.end(), kind.body.begin() + 1, kind.body.end());
    return fields;
}

Raw::iterator place(Raw &fields, int tag) {
    return std::find_if(fields.begin(), fields.end(),
                        [tag](const std::pair<int, std::string> &f) { return f.first == tag; });
}

Raw without(Raw fields, int tag) {
    fields.erase(place(fields, tag));
    return fields;
}

Raw with(Raw fields, int tag, const std::string &value) {
    place(fields, tag)->second = value;
    return fields;
}

Raw twice(Raw fields, int tag) {
    const auto field = place(fields, tag);
    fields.insert(field + 1, *field);
    return fields;
}

// QuickFIX takes a field of an entry that comes again for the beginning of the next entry, and
// tells the lowest tag that the first of the two lacks, or else the second.
Fault cut_entry(const std::vector<int> &tags, int again) {
    const auto cut = std::find(tags.begin(), tags.end(), again);
    const std::set<int> first(tags.begin(), cut + 1), second(cut, tags.end());
    for (const std::set<int> &entry : {first, second}) {
        for (const int tag : std::set<int>(tags.begin(), tags.end())) {
            if (entry.count(tag) == 0) {
                return {tag, 1};
            }
        }
    }
    return NONE;
}

// A text that is not of the form, and what QuickFIX says of it where that is not the same.
struct Misformed {
    std::string value;
    Fault dictionary;
};

std::vector<Misformed> misformed(int tag, Form form) {
    const Fault same = {tag, 6};
    switch (form) {
    case Form::Any:
        return {};
    case Form::Id:
        // To QuickFIX a text is a text.
        return {{"a b", NONE}, {"\x7f", NONE}, {"\xc3\xa9", NONE}, {std::string(41, 'a'), NONE}};
    case Form::Number:
        // Ten digits are a number to QuickFIX, but none that is listed.
        return {{"x", same}, {"1.0", same}, {"+1", same}, {"1234567890", {tag, 5}}};
    case Form::Price:
        return {{"x", same}, {"1.2.3", same}, {"9e1", same}, {".", same}, {"-", same}};
    case Form::Quantity:
        // QuickFIX reads a minus sign.
        return {{"x", same}, {"1.2.3", same}, {".", same}, {"-1", NONE}};
    case Form::Moment:
        return {{"x", same},
                {DAY, same},
                {std::string(DAY) + "-24:00:00", same},
                {std::string(DAY) + "-09:05", same},
                // To QuickFIX a fraction may have any number of digits.
                {std::string(DAY) + "-09:05:00.0000", NONE}};
    }
    return {};
}

// Values of the form that are a fault of the session all the same, and that QuickFIX takes.
std::vector<std::string> out_of_bounds(Form form) {
    switch (form) {
    case Form::Quantity:
        return {"0", ".5", "1.5", "1000000000001"};
    case Form::Moment:
        return {"20250315-00:00:00", "20250313-23:59:59.999"};
    default:
        return {};
    }
}

void add_rule(const Kind &kind, const Rule &rule, std::vector<Case> &cases) {
    const Raw base = whole(kind);
    const std::string name = kind.name + ", " + std::to_string(rule.tag) + " ";
    const bool grouped =
        std::find(kind.grouped.begin(), kind.grouped.end(), rule.tag) != kind.grouped.end();
    const auto add = [&](const std::string &what, const Raw &fields, Fault venue, Fault says) {
        cases.push_back(Case{name + what, kind.firm, fields, venue, says});
    };
    if (rule.need != Need::No) {
        const Fault missing = {rule.tag, 1};
        add("missing", without(base, rule.tag), missing,
            rule.need == Need::Always ? missing : NONE);
    }
    const Fault repeated = {rule.tag, 13};
    add("twice", twice(base, rule.tag), repeated,
        grouped ? cut_entry(kind.grouped, rule.tag) : repeated);
    add("empty", with(base, rule.tag, ""), {rule.tag, 4}, {rule.tag, 4});
    for (const Misformed &text : misformed(rule.tag, rule.form)) {
        add("is " + text.value, with(base, rule.tag, text.value), {rule.tag, 6}, text.dictionary);
    }
    for (const std::string &value : out_of_bounds(rule.form)) {
        add("is " + value, with(base, rule.tag, value), {rule.tag, 5}, NONE);
    }
    for (const Wrong &wrong : rule.wrong) {
        const Fault fault = {rule.tag, rule.reason};
        add("is " + wrong.value, with(base, rule.tag, wrong.value), fault,
            wrong.listed ? NONE : fault);
    }
}

Raw asked(const Raw &group) {
    Raw fields = whole(kinds()[4]);
    fields.erase(place(fields, 453), fields.end());
    fields.insert(fields.end(), group.begin(), group.end());
    return fields;
}

Raw appended(Raw fields, int tag, const std::string &value) {
    fields.push_back({tag, value});
    return fields;
}

// MsgSeqNum, where what can't be read is dropped and what is not the next is rejected; and types of
// the other role.
void add_numbers(std::vector<Case> &cases) {
    const Raw cancel = whole(kinds()[1]);
    for (const char *number : {"", "x", "0", "-1", "1234567890"}) {
        Raw fields = cancel;
        fields.insert(fields.begin() + 3, {34, number});
        cases.push_back({std::string("cancel, 34 is ") + number, "DLR1", fields, DROPPED, NONE});
    }
    Raw far = cancel;
    far.insert(far.begin() + 3, {34, "999999999"});
    cases.push_back({"cancel, 34 is not the next", "DLR1", far, {34, 5}, NONE});
    const Raw request = with(with(whole(kinds()[4]), 49, "DLR1"), 50, "T1");
    cases.push_back({"a dealer asks", "DLR1", request, {35, 11}, NONE});
    const Raw quote = with(with(whole(kinds()[0]), 49, "INV1"), 50, "T8");
    cases.push_back({"an investor quotes", "INV1", quote, {35, 11}, NONE});
}

// The party group.
void add_parties(std::vector<Case> &cases) {
    const auto add = [&](const std::string &name, const Raw &group, Fault venue, Fault says) {
        cases.push_back({name, "INV1", asked(group), venue, says});
    };
    const Raw::value_type id = {448, "DLR1"}, other = {448, "DLR2"}, source = {447, "D"};
    const Raw::value_type role = {452, "35"};
    const Fault count = {453, 16};
    // QuickFIX asks for no group within a group.
    add("no 453", {}, {453, 1}, NONE);
    add("453 empty", {{453, ""}, id, source, role}, {453, 4}, {453, 4});
    add("453 is x", {{453, "x"}, id, source, role}, {453, 6}, {453, 6});
    add("453 is 0, no entry", {{453, "0"}}, NONE, NONE);
    add("453 is 2, one entry", {{453, "2"}, id, source, role}, count, count);
    add("453 is 1, two entries", {{453, "1"}, id, source, role, other, source, role}, count, count);
    add("453 is 1, no entry", {{453, "1"}}, count, count);
    add("448 empty", {{453, "1"}, {448, ""}, source, role}, {448, 4}, {448, 4});
    add("448 is no id", {{453, "1"}, {448, "a b"}, source, role}, {448, 6}, NONE);
    add("447 missing", {{453, "1"}, id, role}, {447, 1}, {447, 1});
    add("447 empty", {{453, "1"}, id, {447, ""}, role}, {447, 4}, {447, 4});
    add("452 missing", {{453, "1"}, id, source}, {452, 1}, {452, 1});
    add("452 empty", {{453, "1"}, id, source, {452, ""}}, {452, 4}, {452, 4});
    add("452 missing in the second", {{453, "2"}, id, source, role, other, source}, {452, 1},
        {452, 1});
    // QuickFIX begins an entry with whatever field of it comes, and takes a field that comes again
    // for the beginning of the next, which lacks the others.
    add("448 missing", {{453, "1"}, source, role}, count, {448, 1});
    add("448 missing in the second", {{453, "2"}, id, source, role, source, role}, count, {448, 1});
    add("447 twice", {{453, "1"}, id, source, source, role}, {447, 13}, {452, 1});
    add("452 twice", {{453, "1"}, id, source, role, role}, {452, 13}, {447, 1});
    add("453 twice", {{453, "1"}, {453, "1"}, id, source, role}, {453, 13}, {22, 1});
    // Entries that name no dealer: the venue passes over them.
    add("another party's source", {{453, "1"}, id, {447, "B"}, role}, NONE, {447, 5});
    add("another party's role", {{453, "1"}, id, source, {452, "1"}}, NONE, {452, 5});
}

// What the venue takes, or ignores, though the dictionary does not have it.
void add_strangers(std::vector<Case> &cases) {
    const auto add = [&](const std::string &name, const std::string &firm, const Raw &fields,
                         Fault says) { cases.push_back({name, firm, fields, NONE, says}); };
    const auto all = kinds();
    const Raw quote = whole(all[0]), cancel = whole(all[1]), decline = whole(all[3]);
    add("a quote of another type", "DLR1", with(quote, 537, "0"), {537, 5});
    add("a cancel of another type", "DLR1", with(cancel, 298, "1"), {298, 5});
    add("a cancel's type with a zero", "DLR1", with(cancel, 298, "05"), {298, 5});
    add("a decline's reason with a zero", "DLR1", with(decline, 658, "010"), {658, 5});
    add("a tag of nobody's", "DLR1", appended(quote, 9999, "1"), {9999, 0});
    add("a tag of another message", "DLR1", appended(quote, 38, "1"), {38, 2});
    add("a symbol", "DLR1", appended(quote, 55, "BUND"), {55, 5});
    add("a header's field behind the body", "DLR1", appended(without(quote, 50), 50, "T1"),
        {50, 14});
    Raw versioned = quote;
    versioned.insert(versioned.begin() + 1, {1128, "9"});
    add("a version in the header", "DLR1", versioned, {1128, 0});
    Raw early = without(whole(all[4]), 48);
    early.insert(place(early, 146), {48, "BONDX0000009"});
    add("a bond before its group", "INV1", early, {48, 1});
}

// Spellings that both read.
void add_spellings(std::vector<Case> &cases) {
    const Raw quote = whole(kinds()[0]);
    const auto add = [&](const std::string &name, int tag, const std::string &value) {
        cases.push_back({name, "DLR1", with(quote, tag, value), NONE, NONE});
    };
    add("a quantity with a point", 135, "2000000.");
    add("a quantity with zeros", 135, "02000000.0");
    add("a price that begins with a point", 133, ".5");
    add("a price that ends with a point", 133, "5.");
    add("a price below none", 133, "-1");
    add("a moment in milliseconds", 62, "20250314-09:10:00.250");
}

}  // namespace

std::string framed(const Raw &fields) {
    std::string body;
    for (const auto &field : fields) {
        body += std::to_string(field.first) + "=" + field.second + "\001";
    }
    std::string frame = "8=FIXT.1.1\0019=" + std::to_string(body.size()) + "\001" + body;
    unsigned sum = 0;
    for (const char byte : frame) {
        sum += static_cast<unsigned char>(byte);
    }
    char end[8];
    std::snprintf(end, sizeof end, "10=%03u\001", sum % 256);
    return frame + end;
}

std::vector<Case> table_cases() {
    // Who sends a message, and what type a role may send, is for the venue alone to say.
    const std::vector<Rule> header = {
        {49, Form::Any, Need::Always, {{"DLR2", true}, {"XYZ", true}}, 9},
        {56, Form::Any, Need::Always, {{"VENUE1", true}}, 9},
        {52, Form::Moment, Need::Always, {}, 0},
        {50, Form::Any, Need::Here, {{"T7", true}}, 5},
    };
    std::vector<Case> cases;
    for (const Kind &kind : kinds()) {
        cases.push_back(Case{kind.name, kind.firm, whole(kind), NONE, NONE});
        for (const Rule &rule : header) {
            add_rule(kind, rule, cases);
        }
        cases.push_back(Case{kind.name + ", 35 is D", kind.firm, with(whole(kind), 35, "D"),
                             {35, 11}, {35, 11}});
        for (const Rule &rule : kind.rules) {
            add_rule(kind, rule, cases);
        }
    }
    return cases;
}

std::vector<Case> other_cases() {
    std::vector<Case> cases;
    add_numbers(cases);
    add_parties(cases);
    add_strangers(cases);
    add_spellings(cases);
    return cases;
}
