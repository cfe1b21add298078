#include "command.h"

#include "fields.h"

#include <map>

#include <nlohmann/json.hpp>

namespace desk {

using nlohmann::json;

namespace {

constexpr std::size_t most_group_bytes = 96; // of the name of a group: 24 characters in UTF-8

Side side_in(const json &text) {
    const std::string side = name_in(text, "side");
    if (side != "buy" && side != "sell") {
        fail_field(text, "no side");
    }
    return side == "buy" ? Side::buy : Side::sell;
}

Command ask_in(const json &text) {
    return command::Ask{name_in(text, "bond"), side_in(text), number_in(text, "quantity"),
                        std::chrono::seconds(number_in(text, "seconds")), dealers_in(text)};
}

Command ask_list_in(const json &text) {
    command::AskList list{name_in(text, "name"),
                          std::chrono::seconds(number_in(text, "seconds")),
                          dealers_in(text),
                          {}};
    const json &lines = text.at("lines");
    if (!lines.is_array() || lines.empty() || lines.size() > most_lines) {
        fail_field(text, "too many lines, or none");
    }
    for (const json &one : lines) {
        ListLine line;
        line.bond = name_in(one, "bond");
        line.side = side_in(one);
        line.quantity = number_in(one, "quantity");
        list.lines.push_back(std::move(line));
    }
    return list;
}

Command hit_in(const json &text) {
    return command::Hit{name_in(text, "request"), name_in(text, "quote"), price_in(text)};
}

Command quote_in(const json &text) {
    const std::int64_t seconds = number_in(text, "seconds");
    return command::Quote{name_in(text, "request"), price_in(text),
                          seconds == 0 ? std::nullopt
                                       : std::optional(std::chrono::seconds(seconds)),
                          name_in(text, "replaces")};
}

// A command about one request, and nothing else.
template <typename Of> Command request_in(const json &text) {
    return Of{name_in(text, "request")};
}

// A command about one program.
template <typename Of> Command program_in(const json &text) {
    return Of{name_in(text, "name")};
}

Command hand_over_in(const json &text) {
    return command::HandOver{name_in(text, "request"), name_in(text, "to")};
}

std::optional<Quantity> limit_in(const json &text, const char *key) {
    return text.at(key).is_null() ? std::nullopt : std::optional(number_in(text, key));
}

Command set_limits_in(const json &text) {
    return command::SetLimits{name_in(text, "login"), limit_in(text, "quantity"),
                              limit_in(text, "exposure")};
}

Command set_reference_in(const json &text) {
    return command::SetReference{name_in(text, "bond"), text.at("price").is_null()
                                                            ? std::nullopt
                                                            : std::optional(price_in(text))};
}

Command set_distance_in(const json &text) {
    const json &distance = text.at("distance");
    return command::SetDistance{
        distance.is_null() ? std::nullopt : std::optional(price_in({{"price", distance}}))};
}

Command save_group_in(const json &text) {
    return command::SaveGroup{name_in(text, "name", most_group_bytes), dealers_in(text)};
}

using Reader = Command (*)(const json &);

const std::map<std::string, Reader> &readers() {
    static const std::map<std::string, Reader> all{
        {"ask", ask_in},
        {"ask list", ask_list_in},
        {"stop list",
         [](const json &text) -> Command { return command::StopList{name_in(text, "list")}; }},
        {"hit", hit_in},
        {"pass", request_in<command::Pass>},
        {"quote", quote_in},
        {"withdraw", request_in<command::Withdraw>},
        {"decline", request_in<command::Decline>},
        {"cancel all", [](const json &) -> Command { return command::CancelAll{}; }},
        {"claim", request_in<command::ClaimRequest>},
        {"release", request_in<command::ReleaseRequest>},
        {"hand over", hand_over_in},
        {"set limits", set_limits_in},
        {"set reference", set_reference_in},
        {"set distance", set_distance_in},
        {"stop program", program_in<command::StopProgram>},
        {"release program", program_in<command::ReleaseProgram>},
        {"save group", save_group_in}};
    return all;
}

} // namespace

std::optional<Command> read_command(const json &text) {
    try {
        const auto found = readers().find(name_in(text, "do"));
        return found == readers().end() ? std::nullopt : std::optional(found->second(text));
    } catch (const json::exception &) {
        return {};
    }
}

} // namespace desk
