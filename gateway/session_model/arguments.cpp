#include "arguments.h"

#include "writing.h"

#include <algorithm>

namespace session_model {

namespace {

constexpr std::size_t MOST_NAME = 40; // of a firm or a venue
constexpr std::size_t MOST_TOLD_TEXT = 200;

bool has_no_soh(Text text) {
    return text.find(SOH) == Text::npos;
}

bool is_name(Text text) {
    return !text.empty() && text.size() <= MOST_NAME && has_no_soh(text);
}

bool is_leaving(const Said &said) {
    return said.way != Way::kept;
}

bool is_kept(const Said &said) {
    return said.way != Way::leaves;
}

std::string bytes_of(const Setting &setting, const std::optional<Said> &said) {
    return said && is_leaving(*said) ? written(setting.names, setting.clock, *said) : std::string();
}

Sent sent_of(const std::optional<Said> &said, std::size_t length) {
    return {said ? said->number : 0, length, said && is_kept(*said)};
}

} // namespace

std::optional<Setting> setting_of(const SettingArguments &arguments) {
    Setting setting;
    setting.names.firm = text_at(arguments.firm, arguments.firm_len);
    setting.names.venue = text_at(arguments.venue, arguments.venue_len);
    setting.names.desk = text_at(arguments.desk, arguments.desk_len);
    setting.clock.date = text_at(arguments.date, arguments.date_len);
    setting.clock.moment = arguments.moment;
    if (!is_name(setting.names.firm) || !is_name(setting.names.venue) ||
        !is_date(setting.clock.date) || arguments.moment >= DAY) {
        return std::nullopt;
    }
    return setting;
}

bool is_told_text(Text text) {
    return !text.empty() && text.size() <= MOST_TOLD_TEXT && has_no_soh(text);
}

bool is_denial(const Denial &denial) {
    return is_told_text(denial.text) && denial.id.size() <= MOST_TOLD_TEXT && has_no_soh(denial.id);
}

bool copy_to(std::uint8_t *out, std::size_t out_len, Text bytes) {
    if (bytes.size() > out_len) {
        return false;
    }
    std::copy(bytes.begin(), bytes.end(), out);
    return true;
}

bool tell(const Setting &setting, const Turn &turn, const Place &place) {
    const std::string first = bytes_of(setting, turn.first);
    const std::string second = bytes_of(setting, turn.second);
    const std::string kept =
        turn.first && is_kept(*turn.first) ? kept_frame(turn.first->body) : std::string();
    if (!copy_to(place.out, place.out_len, first + second + kept)) {
        return false;
    }
    Told told{};
    told.connection = turn.connection;
    told.first = sent_of(turn.first, first.size());
    told.second = sent_of(turn.second, second.size());
    told.kept_len = kept.size();
    told.takes = turn.takes;
    told.drops_rejects = turn.drops_rejects;
    told.ending = static_cast<std::uint32_t>(turn.ending);
    told.notice = static_cast<std::uint32_t>(turn.notice);
    *place.told = told;
    *place.session = turn.session;
    return true;
}

} // namespace session_model
