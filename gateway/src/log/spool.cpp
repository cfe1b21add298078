#include "log/spool.h"

#include "log/session_note_line.h"

#include <algorithm>
#include <ranges>
#include <stdexcept>
#include <utility>

#include <fmt/format.h>

namespace gateway {

namespace {

// Records that are read at once.
constexpr std::size_t chunk = 512;

// 35 has one or two letters.
std::string type_of(const char (&type)[4]) {
    return {type, std::find(std::begin(type), std::end(type), '\0')};
}

bool is_reject(const std::string &type) {
    return type == "3" || type == "j";
}

[[noreturn]] void fail_not_given(const std::string &firm, std::uint32_t number) {
    throw std::runtime_error(fmt::format("the venue did not give {} its message {}", firm, number));
}

} // namespace

Spool::Spool(const std::filesystem::path &folder, const std::vector<std::string> &firms)
    : folder_(folder), bodies_(folder) {
    for (const std::string &name : firms) {
        firms_.try_emplace(name, folder);
    }
}

std::vector<std::string> Spool::firms() const {
    std::vector<std::string> names;
    for (const auto &[name, firm] : firms_) {
        names.push_back(name);
    }
    return names;
}

const Spool::Firm &Spool::firm_of(const std::string &name) const {
    const auto found = firms_.find(name);
    if (found == firms_.end()) {
        throw std::runtime_error(fmt::format("there is no firm {}", name));
    }
    return found->second;
}

Spool::Firm &Spool::firm_of(const std::string &name) {
    return const_cast<Firm &>(std::as_const(*this).firm_of(name));
}

Spool::Body Spool::append(std::string_view type, std::string_view bytes, std::string_view frame,
                          std::string_view told) {
    Body body;
    if (type.size() >= sizeof body.type) {
        throw std::runtime_error(fmt::format("a message of the type {} is not kept", type));
    }
    body.begin = bodies_.append({bytes, frame, told});
    body.length = static_cast<std::uint32_t>(bytes.size());
    std::ranges::copy(type, body.type);
    return body;
}

bool Spool::is_same(const Given &is, const GivenMessage &message) const {
    return is.place == message.place && type_of(is.body.type) == message.type &&
           bytes_of(is.body) == message.wire;
}

std::optional<Digest> Spool::give(const std::string &name, const GivenMessage &message) {
    Firm &firm = firm_of(name);
    const std::lock_guard lock(firm.mutex);
    const std::uint32_t number = message.number;
    if (number > 0 && number <= firm.last_given) {
        if (!is_same(firm.given.at(number), message)) {
            throw std::runtime_error(fmt::format(
                "the venue gives {} another message {} than it gave before", name, number));
        }
        return std::nullopt;
    }
    if (number != firm.last_given + 1) {
        throw std::runtime_error(fmt::format("the venue gave {} message {} where {} was due", name,
                                             number, firm.last_given + 1));
    }
    const std::string_view told = message.told ? std::string_view(*message.told) : "";
    const Digest hash = hash_of_message(firm.last_hash, message.wire);
    firm.given.put(number,
                   {append(message.type, message.wire, message.frame, told),
                    static_cast<std::uint32_t>(message.frame.size()),
                    static_cast<std::uint32_t>(told.size()), message.place, message.moment, hash});
    firm.last_given = number;
    firm.last_hash = hash;
    return hash;
}

std::uint32_t Spool::last_given(const std::string &name) const {
    const Firm &firm = firm_of(name);
    const std::lock_guard lock(firm.mutex);
    return firm.last_given;
}

Digest Spool::hash_of_given(const std::string &name, std::uint32_t number) const {
    const Firm &firm = firm_of(name);
    const std::lock_guard lock(firm.mutex);
    return firm.given.at(number).hash;
}

GivenMessage Spool::given(const std::string &name, std::uint32_t number) const {
    const Firm &firm = firm_of(name);
    const std::lock_guard lock(firm.mutex);
    const Given found = firm.given.at(number);
    if (found.body.length == 0) {
        fail_not_given(name, number);
    }
    const std::uint64_t behind = found.body.begin + found.body.length;
    GivenMessage message{number,
                         found.place,
                         found.moment,
                         type_of(found.body.type),
                         bytes_of(found.body),
                         bodies_.at(behind, found.frame)};
    if (found.told > 0) {
        message.told = bodies_.at(behind + found.frame, found.told);
    }
    return message;
}

void Spool::keep(const std::string &name, const KeptMessage &message) {
    Firm &firm = firm_of(name);
    const std::lock_guard lock(firm.mutex);
    const Body body = append(message.type, message.frame);
    firm.put({body, message.number, message.first, 0, message.is_copy ? 1U : 0U});
    if (is_reject(message.type) && firm.first_reject == 0) {
        firm.first_reject = message.number;
    }
}

void Spool::keep_given(const std::string &name, std::uint32_t number, std::uint32_t given) {
    Firm &firm = firm_of(name);
    const std::lock_guard lock(firm.mutex);
    keep_here(name, firm, firm.given.at(given), number, given);
}

void Spool::keep_all_given(const std::string &name, std::uint32_t first, std::uint32_t last,
                           const std::function<std::uint32_t(const Digest &)> &number_of) {
    Firm &firm = firm_of(name);
    const std::lock_guard lock(firm.mutex);
    for (std::uint32_t given = first; given <= last;) {
        const std::size_t count = std::min<std::size_t>(chunk, last - given + 1);
        std::vector<Given> all = firm.given.some(given, count);
        all.resize(count);
        for (const Given &each : all) {
            const std::uint32_t number = number_of(each.hash);
            if (number > 0) {
                keep_here(name, firm, each, number, given);
            }
            ++given;
        }
    }
}

void Spool::keep_here(const std::string &name, Firm &firm, const Given &found, std::uint32_t number,
                      std::uint32_t given) {
    if (found.body.length == 0) {
        throw std::runtime_error(fmt::format(
            "{}'s session keeps message {}, which the venue did not give", name, given));
    }
    firm.put({found.body, number, found.moment, given, 0});
}

void Spool::Firm::put(const Kept &record) {
    if (record.number <= last_kept) {
        throw std::runtime_error(
            fmt::format("message {} is kept behind message {}", record.number, last_kept));
    }
    kept.put(kept_end++, record);
    last_kept = record.number;
}

std::uint32_t Spool::Firm::place_of(std::uint32_t number) const {
    const auto places = std::views::iota(0U, kept_end);
    const auto number_at = [this](std::uint32_t place) { return kept.at(place).number; };
    const auto found = std::ranges::lower_bound(places, number, {}, number_at);
    return static_cast<std::uint32_t>(found - places.begin());
}

template <typename See> void Spool::Firm::each(std::uint32_t from, See see) const {
    for (std::uint32_t place = place_of(from); place < kept_end;) {
        const std::vector<Kept> records = kept.some(place, chunk);
        if (records.empty()) {
            throw std::runtime_error("the spool was cut off");
        }
        for (const Kept &record : records) {
            if (record.body.length > 0 && !see(place, record)) {
                return;
            }
            ++place;
        }
    }
}

void Spool::drop_rejects(const std::string &name, std::uint32_t from) {
    Firm &firm = firm_of(name);
    const std::lock_guard lock(firm.mutex);
    if (firm.first_reject == 0) {
        return;
    }
    firm.each(std::max(from, firm.first_reject), [&](std::uint32_t place, Kept record) {
        if (record.given == 0 && is_reject(type_of(record.body.type))) {
            record.body = {};
            firm.kept.put(place, record);
        }
        return true;
    });
    if (from <= firm.first_reject) {
        firm.first_reject = 0;
    }
}

void Spool::reset(const std::string &name, std::uint32_t behind) {
    Firm &firm = firm_of(name);
    const std::lock_guard lock(firm.mutex);
    RecordFile<Kept> copies(folder_);
    std::uint32_t count = 0;
    firm.each(behind + 1, [&](std::uint32_t, const Kept &record) {
        if (record.given > 0) {
            copies.put(count, {record.body, count + 2, record.first, record.given, 1});
            ++count;
        }
        return true;
    });
    firm.kept = std::move(copies);
    firm.kept_end = count;
    firm.last_kept = count > 0 ? count + 1 : 0;
    firm.first_reject = 0;
}

// Bytes stay as they are once they are there. They are read without the lock: the venue's next
// message to the firm, for which all others wait, is not to wait for a disk.
std::vector<KeptMessage> Spool::kept(const std::string &name, std::uint32_t from,
                                     std::size_t limit) const {
    std::vector<KeptMessage> messages;
    for (const Kept &record : records_of(firm_of(name), from, limit)) {
        messages.push_back({record.number, type_of(record.body.type), bytes_of(record.body),
                            record.first, record.is_copy != 0});
    }
    return messages;
}

std::vector<Spool::Kept> Spool::records_of(const Firm &firm, std::uint32_t from,
                                           std::size_t limit) {
    const std::lock_guard lock(firm.mutex);
    std::vector<Kept> records;
    firm.each(from, [&](std::uint32_t, const Kept &record) {
        records.push_back(record);
        return records.size() < limit;
    });
    return records;
}

std::uint64_t Spool::count_given(const std::string &name, std::uint32_t behind) const {
    const Firm &firm = firm_of(name);
    const std::lock_guard lock(firm.mutex);
    std::uint64_t count = 0;
    firm.each(behind + 1, [&](std::uint32_t, const Kept &record) {
        count += record.given > 0 ? 1 : 0;
        return true;
    });
    return count;
}

} // namespace gateway
