#include "config/config.h"

#include "base/private_file.h"
#include "common/regular_file.h"
#include "config/config_day.h"
#include "config/config_section.h"
#include "config/venue_file.h"

#include <algorithm>
#include <array>
#include <cerrno>
#include <system_error>

#include <fmt/format.h>
#include <toml++/toml.h>
#include <unistd.h>

namespace gateway {

namespace {

// Bytes of the log's disk that are held back.
constexpr std::size_t usual_reserve = std::size_t{256} << 20;
constexpr std::size_t most_reserve = std::size_t{1} << 40;

namespace fs = std::filesystem;

std::string host_name() {
    std::array<char, 256> name{};
    return ::gethostname(name.data(), name.size() - 1) == 0 ? std::string(name.data()) : "";
}

// The one in which its bytes are: a file may be a link into another.
fs::path folder_of(const fs::path &file) {
    std::error_code fault;
    const fs::path real = fs::weakly_canonical(file, fault);
    return (fault ? file : real).parent_path();
}

// Whether a firm's credentials held to a day before this one: a firm that has left keeps them until
// somebody takes them away.
bool have_ended(const toml::node &credentials, std::string_view day) {
    const toml::table *part = credentials.as_table();
    const std::string ends = part == nullptr ? "" : (*part)["ends"].value_or(std::string());
    return !ends.empty() && ends < day;
}

class ConfigReader {
  public:
    ConfigReader(ConfigFiles &files, const fs::path &path, std::string_view day)
        : files_(files), path_(fs::absolute(path)), day_(day),
          table_(parse(path_, files_.text(path_))) {}

    // These files were found right, or a day has begun with them.
    void take_for_right() { were_right_ = true; }

    // The venues' names: the parts [venue.NAME], or no name for a part [venue] with a command.
    std::vector<std::string> venues() const {
        const toml::table *venue = table_["venue"].as_table();
        if (venue == nullptr || venue->contains("command")) {
            return {""};
        }
        std::vector<std::string> names;
        for (const auto &[key, node] : *venue) {
            if (!node.is_table()) {
                section("venue").fail_at(key.str(), "needs the key command beside it");
            }
            names.emplace_back(key.str());
        }
        return names.empty() ? std::vector<std::string>{""} : names;
    }

    Config read(const std::string &venue_name) {
        config_ = Config{};
        config_.venue = venue_name;
        for (const auto &[key, node] : table_) {
            if (std::ranges::find(sections, key.str()) == sections.end() || !node.is_table()) {
                fail(path_, fmt::format("line {}: {} is no part of it", key.source().begin.line,
                                        key.str()));
            }
        }
        read_venue();
        read_days();
        read_log();
        check_log_of_each_day();
        read_copies();
        read_seal();
        read_sessions();
        read_tls();
        read_limits();
        read_rest();
        return config_;
    }

    Config read_access(const Config &in_force) {
        config_ = in_force;
        read_sessions();
        read_tls();
        return config_;
    }

    fs::path credentials_file() const {
        return section("fix").beside(section("fix").text("credentials"));
    }

    VenuePlace read_place(const std::string &venue_name) {
        config_ = Config{};
        config_.venue = venue_name;
        config_.firms.date = day_;
        Section venue = venue_section();
        const fs::path file = venue.beside(venue.text_of_need("configuration"));
        read_log();
        return {file, config_};
    }

    // Those that may log on on this day, and that none of the venues has.
    std::vector<std::string> unknown_firms(const std::vector<Config> &configs) const {
        const fs::path file = credentials_file();
        std::vector<std::string> unknown;
        for (const auto &[key, node] : parse(file, files_.text(file))) {
            const std::string firm(key.str());
            const auto has = [&](const Config &each) {
                return std::ranges::find(each.firms.names, firm) != each.firms.names.end();
            };
            if (std::ranges::none_of(configs, has) && !have_ended(node, day_)) {
                unknown.push_back(firm);
            }
        }
        return unknown;
    }

    void check_firms(const std::vector<Config> &configs) const {
        if (const auto unknown = unknown_firms(configs); !unknown.empty()) {
            fail(credentials_file(), fmt::format("the venue has no firm {}", unknown.front()));
        }
    }

  private:
    static constexpr std::array<std::string_view, 11> sections = {
        "venue", "day",    "log",      "copies",  "seal",  "fix",
        "tls",   "limits", "operator", "metrics", "events"};
    static constexpr std::array<std::string_view, 4> levels = {"debug", "info", "warning", "error"};

    Section section(std::string_view name) const {
        return {path_, std::string(name), table_[name].as_table()};
    }

    Section venue_section() const {
        if (config_.venue.empty()) {
            return section("venue");
        }
        return {path_, "venue." + config_.venue, table_["venue"][config_.venue].as_table()};
    }

    void read_venue() {
        Section venue = venue_section();
        config_.command = venue.words("command");
        // A word with a slash is a path, and others are looked up in PATH.
        for (std::string &word : config_.command) {
            if (word.find('/') != std::string::npos && !word.starts_with('-')) {
                word = venue.beside(word).string();
            }
        }
        config_.confined = venue.find<bool>("confined").value_or(true);
        config_.program = venue.path("program");
        if (config_.program.empty()) {
            config_.program = config_.command.front();
        }
        const fs::path file = venue.beside(venue.text_of_need("configuration"));
        venue.end();
        VenueFile read = read_venue_file(file, files_.text(file), day_);
        config_.configuration = std::move(read.text);
        config_.firms = {std::move(read.date), std::move(read.firms), read.has_own_date};
    }

    // All venues of one gateway have the same days.
    void read_days() { config_.days = day_rules_of(section("day"), files_, day_); }

    // With the day's date and the venue's name: each venue has a log of its own.
    std::string filled(std::string text) const {
        text = of_venue(std::move(text));
        const std::size_t at = text.find("{date}");
        if (at != std::string::npos) {
            text.replace(at, 6, config_.firms.date);
        }
        return text;
    }

    std::string of_venue(std::string text) const {
        const std::size_t venue = text.find("{venue}");
        if (venue != std::string::npos) {
            text.replace(venue, 7, config_.venue);
        } else if (!config_.venue.empty()) {
            fail(path_, "[log] needs {venue} in the name, since there are several venues");
        }
        return text;
    }

    void read_log() {
        Section log = section("log");
        const std::string file = log.text("sqlite");
        config_.postgres = log.text("postgres");
        const std::string schema = log.text("schema", "day_{date}");
        config_.name = log.text("gateway", host_name());
        config_.synchronous_commit = log.text("synchronous_commit", "on");
        config_.disk = log.path("disk");
        config_.reserve = log.number("reserve", usual_reserve, 0, most_reserve);
        config_.spool = log.path("spool");
        if (is_in_memory(config_.spool)) {
            log.fail_at("spool",
                        "is a folder in memory: it grows with the day, so it needs a disk");
        }
        log.end();
        if (file.empty() == config_.postgres.empty()) {
            fail(path_, "[log] has to name one of sqlite and postgres");
        }
        if (!file.empty()) {
            config_.sqlite = log.beside(filled(file));
            config_.log_files = log.beside(of_venue(file));
            if (log.has("disk")) {
                log.fail_at("disk", "is for a log in PostgreSQL: a file's disk is known");
            }
            config_.disk = folder_of(config_.sqlite);
            check_private(config_.sqlite);
        } else {
            config_.schema = filled(schema);
        }
    }

    // Without a date in the venue's configuration there is a day after this one.
    void check_log_of_each_day() const {
        Section log = section("log");
        const char *key = config_.sqlite.empty() ? "schema" : "sqlite";
        const std::string place = log.text(key, "day_{date}");
        if (!config_.firms.has_own_date && place.find("{date}") == std::string::npos) {
            log.fail_at(key, "has no {date}: each day needs a log of its own, unless the venue's "
                             "configuration has a date");
        }
    }

    void read_copies() {
        Section copies = section("copies");
        config_.copies = copies.path("folder");
        config_.sealed = copies.path("sealed");
        if (copies.has("keep")) {
            config_.keep = copies.number("keep", 1, 1, 36500);
        }
        copies.end();
        if (copies.stands() && config_.copies.empty()) {
            copies.fail_at("folder", "is missing");
        }
        const bool has_date =
            config_.log_files.filename().string().find("{date}") != std::string::npos;
        if (copies.stands() && !has_date) {
            fail(path_, "[copies] is for logs of SQLite, with {date} in the file's name");
        }
    }

    void read_seal() {
        Section seal = section("seal");
        SealFiles files{seal.beside(seal.text_of_need("key")),
                        seal.beside(seal.text_of_need("signing_key")),
                        {}};
        for (const std::string &file : seal.words("gateways")) {
            files.gateways.push_back(seal.beside(file));
        }
        config_.checkpoints = seal.beside(seal.text_of_need("checkpoints"));
        if (seal.has("send")) {
            config_.checkpoints_to = seal.words("send");
        }
        if (config_.spool.empty()) {
            config_.spool = config_.disk.empty() ? config_.checkpoints : config_.disk;
        }
        seal.end();
        config_.keys = files_.keys(files);
    }

    void read_sessions() {
        Section fix = section("fix");
        config_.engine.address = fix.text("listen", "127.0.0.1");
        config_.engine.port = static_cast<std::uint16_t>(fix.number("port", 9878, 1, 65535));
        beyond_loopback_ = fix.flag("plain_tcp_beyond_loopback");
        const fs::path credentials = fix.beside(fix.text_of_need("credentials"));
        config_.certification = certification_in(fix);
        fix.end();
        config_.credentials =
            credentials_of(config_.firms.names, config_.configuration, credentials, files_);
    }

    Certification certification_in(Section &fix) {
        Certification rules{fix.flag("certified")};
        const fs::path file = fix.path("report_key");
        check_readable(fix, "report_key");
        if (!file.empty()) {
            rules.key = std::make_shared<const SigningKey>(
                SigningKey::public_of(files_.text(file), file.string()));
        } else if (rules.is_needed) {
            fix.fail_at("certified", "needs report_key");
        }
        return rules;
    }

    void read_tls() {
        Section tls = section("tls");
        EngineSettings &engine = config_.engine;
        engine.certificate = tls.path("certificate").string();
        engine.key = tls.path("key").string();
        engine.authorities = tls.path("authorities").string();
        engine.client_certificates = tls.flag("client_certificates");
        engine.revoked = tls.path("revoked").string();
        tls.end();
        for (const std::string_view need : {"certificate", "key"}) {
            if (tls.stands() && tls.text(need).empty()) {
                tls.fail_at(need, "is missing: [tls] has to have certificate and key");
            }
        }
        for (const std::string_view file : {"certificate", "key", "authorities", "revoked"}) {
            check_readable(tls, file);
        }
        files_.require_private(engine.key);
        if (engine.client_certificates && engine.authorities.empty()) {
            tls.fail_at("client_certificates", "needs authorities");
        }
        if (!engine.revoked.empty() && !engine.client_certificates) {
            tls.fail_at("revoked", "needs client_certificates");
        }
        if (!tls.stands() && !beyond_loopback_ && !engine.address.starts_with("127.")) {
            fail(path_, fmt::format("[fix] listen = \"{}\" is not on the loopback, and there is no "
                                    "[tls]: plain_tcp_beyond_loopback has to say so",
                                    engine.address));
        }
    }

    // OpenSSL would say which file it is, and not which key.
    void check_readable(Section &part, std::string_view key) const {
        const fs::path file = part.path(key);
        if (!file.empty() && !were_right_ && ::access(file.c_str(), R_OK) != 0) {
            const std::string cause = std::generic_category().message(errno);
            part.fail_at(key, fmt::format("= \"{}\": {}", part.text(key), cause));
        }
    }

    void read_limits() {
        Section limits = section("limits");
        EngineSettings &engine = config_.engine;
        engine.strangers = limits.number("strangers", 256, 1, 65536);
        engine.strangers_per_address = limits.number("strangers_per_address", 16, 1, 65536);
        engine.logon_seconds = static_cast<unsigned>(limits.number("logon_seconds", 10, 1, 600));
        engine.send_seconds = static_cast<unsigned>(limits.number("send_seconds", 10, 1, 600));
        engine.waiting_bytes = limits.number("waiting_bytes", 4194304, 65536, 1073741824);
        config_.waiting_entries = limits.number("waiting_entries", 4096, 1, 1048576);
        config_.waiting_messages = limits.number("waiting_messages", 16384, 16, 1048576);
        config_.venue_starts = static_cast<unsigned>(limits.number("venue_starts", 3, 1, 60));
        config_.venue_seconds = static_cast<unsigned>(limits.number("venue_seconds", 30, 5, 3600));
        read_rates(limits);
        config_.day_bytes = limits.number("day_bytes", 1073741824, 65536, most_day_bytes);
        config_.shares.batch = limits.number("entries_per_batch", 64, 1, 65536);
        config_.shares.unanswered = limits.number("unanswered_per_firm", 256, 1, 1048576);
        config_.shares.all_unanswered = limits.number("unanswered", 4096, 1, 1048576);
        limits.end();
    }

    // The least of each is so much that what is read at once holds a firm back for less than two
    // seconds, however short its heartbeat: that is no silence of it.
    void read_rates(Section &limits) {
        constexpr std::int64_t most = 1073741824;
        RateLimits &rates = config_.rates;
        rates.messages_per_second = limits.number("messages_per_second", 2000, 500, most);
        rates.messages_burst = limits.number("messages_burst", 10000, 500, most);
        rates.bytes_per_second = limits.number("bytes_per_second", 1048576, 65536, most);
        rates.bytes_burst = limits.number("bytes_burst", 8388608, 65536, most);
        rates.resends_per_second = limits.number("resends_per_second", 5000, 500, most);
        rates.resends_burst = limits.number("resends_burst", 20000, 500, most);
    }

    void read_rest() {
        Section socket = section("operator");
        config_.operator_socket = socket.path("socket");
        config_.operator_group = socket.text("group");
        socket.end();
        if (config_.operator_socket.empty() && socket.stands()) {
            socket.fail_at("socket", "is missing");
        }
        Section metrics = section("metrics");
        config_.metrics_port = static_cast<unsigned short>(metrics.number("port", 0, 0, 65535));
        metrics.end();
        Section events = section("events");
        config_.event_level = events.text("level", "info");
        if (std::find(levels.begin(), levels.end(), config_.event_level) == levels.end()) {
            events.fail_at("level", "is none of debug, info, warning and error");
        }
        events.end();
    }

    ConfigFiles &files_;
    fs::path path_;
    std::string day_;
    toml::table table_;
    Config config_;
    bool beyond_loopback_ = false;
    bool were_right_ = false; // whatever has become of files that are not read here
};

} // namespace

std::vector<Config> read_configs(ConfigFiles &files, const fs::path &path, std::string_view day) {
    return read_configs(files, path, day, UnknownFirms::are_faults);
}

std::vector<Config> read_configs(ConfigFiles &files, const fs::path &path, std::string_view day,
                                 UnknownFirms unknown) {
    ConfigReader reader(files, path, day);
    if (unknown == UnknownFirms::count_for_nothing) {
        reader.take_for_right();
    }
    std::vector<Config> configs;
    for (const std::string &venue : reader.venues()) {
        configs.push_back(reader.read(venue));
    }
    if (unknown == UnknownFirms::are_faults) {
        reader.check_firms(configs);
    }
    return configs;
}

std::vector<std::string> unknown_firms(const fs::path &path, const std::vector<Config> &configs) {
    ConfigFiles files;
    return ConfigReader(files, path, configs.front().firms.date).unknown_firms(configs);
}

fs::path credentials_file(ConfigFiles &files, const fs::path &path) {
    return ConfigReader(files, path, "").credentials_file();
}

std::vector<VenuePlace> venue_places(ConfigFiles &files, const fs::path &path,
                                     std::string_view day) {
    ConfigReader reader(files, path, day);
    std::vector<VenuePlace> places;
    for (const std::string &venue : reader.venues()) {
        places.push_back(reader.read_place(venue));
    }
    return places;
}

Config read_access(const fs::path &path, const Config &in_force) {
    ConfigFiles files;
    return ConfigReader(files, path, in_force.firms.date).read_access(in_force);
}

} // namespace gateway
