// The operator's command `backup`.
#include "operator/admin_stream.h"

#include "base/private_file.h"
#include "base/tar_header.h"
#include "health/disk_reserve.h"
#include "log/checkpoint_file.h"
#include "log/sqlite_snapshot.h"
#include "operator/admin_words.h"

#include <algorithm>
#include <chrono>
#include <filesystem>
#include <string>
#include <vector>

#include <fmt/format.h>
#include <unistd.h>

namespace gateway {

namespace {

using Clock = std::chrono::steady_clock;

constexpr std::string_view name = "backup";

// As long as the log is read, what stands beside its file grows: so a reader that is slow is left.
constexpr auto longest = std::chrono::minutes(10);

// What is copied of one venue.
struct Source {
    std::filesystem::path log;
    std::filesystem::path checkpoint;
    std::filesystem::path disk;
    std::uint64_t reserve = 0;
};

void check_user(uid_t user) {
    if (user != 0 && user != ::geteuid()) {
        throw AdminFault("a backup has what every firm said: it is for root and the gateway's "
                         "user");
    }
}

Source source_of(const Config &config) {
    if (config.sqlite.empty()) {
        throw AdminFault(fmt::format(
            "the log is in PostgreSQL, whose own tools copy it: `pg_dump -n {}` this day, "
            "`pg_basebackup -X stream` the whole server; and keep {} with it",
            config.schema,
            checkpoint_path(config.checkpoints, config.venue, config.firms.date).string()));
    }
    return {config.sqlite, checkpoint_path(config.checkpoints, config.venue, config.firms.date),
            config.disk, config.reserve};
}

std::vector<Source> sources_of(AdminScene &scene) {
    OpenDay day(scene);
    std::vector<Source> sources;
    for (Leader *leader : day.leaders()) {
        sources.push_back(source_of(leader->day().config));
    }
    return sources;
}

// Writes the pieces of one stream, as admin_words.h has them, and its files.
class Stream {
  public:
    explicit Stream(const PutBytes &put) : put_(put), until_(Clock::now() + longest) {}

    void put(std::string_view bytes) {
        if (Clock::now() > until_) {
            throw std::runtime_error(
                fmt::format("it was not taken within {} minutes", longest.count()));
        }
        for (; !bytes.empty(); bytes.remove_prefix(std::min(bytes.size(), longest_piece))) {
            const std::string_view part = bytes.substr(0, longest_piece);
            put_(length_of_piece(part.size()) + std::string(part));
        }
    }
    void put_file(const std::string &file, const std::string &text) {
        put(tar_header(file, text.size(), seconds()) + text + tar_padding(text.size()));
    }
    void put_file(const std::string &file, const SqliteSnapshot::File &from, const Source &source) {
        put(tar_header(file, from.size(), seconds()));
        for (std::uint64_t at = 0; at < from.size(); at += longest_piece) {
            put_piece(from.read(at, longest_piece), source);
        }
        put(tar_padding(from.size()));
    }
    // Of two files of one name the later one counts, for whoever unpacks the stream.
    void put_beside(const std::string &file, const SqliteSnapshot &from, const Source &source) {
        const std::uint64_t size = from.beside().size();
        std::string padding; // of the one before
        const auto begin = [&] {
            put(padding + tar_header(file, size, seconds()));
            padding = tar_padding(size);
        };
        from.give_beside(longest_piece, begin,
                         [&](std::string_view piece) { put_piece(piece, source); });
        put(padding);
    }
    void end() {
        put(tar_end());
        put_(length_of_piece(0));
    }
    void fail(std::string_view why) { put_(std::string(piece_is_fault) + std::string(why)); }

  private:
    void put_piece(std::string_view piece, const Source &source) {
        const auto room = source.disk.empty() ? std::nullopt : room_of(source.disk);
        if (room && room->free < source.reserve) {
            throw std::runtime_error("the log's disk is nearly full");
        }
        put(piece);
    }
    static std::uint64_t seconds() {
        return static_cast<std::uint64_t>(std::chrono::duration_cast<std::chrono::seconds>(
                                              std::chrono::system_clock::now().time_since_epoch())
                                              .count());
    }

    const PutBytes &put_;
    Clock::time_point until_;
};

// The checkpoint is read first: the log has all that it signs.
void put_source(const Source &source, Stream &stream) {
    const bool is_signed = std::filesystem::exists(source.checkpoint);
    const std::string checkpoint = is_signed ? read_public(source.checkpoint) : "";
    const SqliteSnapshot snapshot(source.log);
    const std::string log = source.log.filename();
    stream.put_file(log, snapshot.log(), source);
    stream.put_beside(log + "-wal", snapshot, source);
    if (is_signed) {
        stream.put_file(source.checkpoint.filename(), checkpoint);
    }
}

void put_sources(const std::vector<Source> &sources, const PutBytes &put) {
    put(answer_is_stream);
    Stream stream(put);
    try {
        for (const Source &source : sources) {
            put_source(source, stream);
        }
        stream.end();
    } catch (const std::exception &fault) {
        stream.fail(fault.what());
    }
}

} // namespace

AdminAnswer run_backup(AdminCall &) {
    throw WrongWords();
}

bool stream_backup(AdminScene &scene, uid_t user, std::string_view line, const PutBytes &put) {
    const auto request = request_of(line);
    if (!request || request->words != std::vector<std::string>{std::string(name)}) {
        return false;
    }
    std::vector<Source> sources;
    try {
        check_user(user);
        sources = sources_of(scene);
    } catch (const std::runtime_error &fault) {
        put(std::string(answer_is_error) + fault.what() + "\n");
        return true;
    }
    put_sources(sources, put);
    return true;
}

} // namespace gateway
