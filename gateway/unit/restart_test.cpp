// What a restart would do to the day that is open, as it is told; with which configuration a start
// goes on; and which days an operator has ended.
#define DOCTEST_CONFIG_IMPLEMENT_WITH_MAIN
#include <doctest/doctest.h>

#include "config/start_configuration.h"
#include "config/venue_file.h"
#include "log/checkpoint_file.h"
#include "log/sqlite_statement.h"
#include "service/day_hours.h"
#include "service/ended_day.h"
#include "service/restart_forecast.h"
#include "site.h"

#include <chrono>
#include <filesystem>
#include <fstream>
#include <string>
#include <vector>

#include <fmt/chrono.h>
#include <fmt/format.h>
#include <fmt/ranges.h>
#include <sqlite3.h>

namespace gateway::tests {

using namespace std::chrono_literals;
using Words = std::vector<std::string>;

std::string date_of(SystemSeconds moment) {
    return fmt::format("{:%Y%m%d}", fmt::gmtime(moment.time_since_epoch().count()));
}
std::string text_of(SystemSeconds moment) {
    return fmt::format("{:%Y-%m-%dT%H:%M:%SZ}", fmt::gmtime(moment.time_since_epoch().count()));
}

// Looked at while a day goes on: at noon, unless it is said otherwise.
struct Looked {
    Site site;
    const std::string day = today();
    const SystemSeconds midnight = midnight_of(day);
    const std::string next = date_of(midnight + 24h);
    const std::string end = text_of(midnight + 24h);

    RestartForecast at(std::chrono::seconds time, Viewer viewer = Viewer::operators_check) const {
        return forecast_restart(site.file(), midnight + time, viewer);
    }
    // The only sentence, without its begin.
    std::string said(std::chrono::seconds time = 12h,
                     Viewer viewer = Viewer::operators_check) const {
        const RestartForecast forecast = at(time, viewer);
        const std::string all = fmt::format("{}", fmt::join(forecast.sentences, "\n"));
        const std::string begin = "a restart now ";
        check(all.starts_with(begin) && forecast.sentences.size() == 1, all);
        return all.substr(begin.size());
    }
    bool goes_well(std::chrono::seconds time = 12h) const { return at(time).goes_well; }

    fs::path checkpoint() const { return site / fmt::format("checkpoints/day-{}.checkpoint", day); }
    fs::path log() const { return site / fmt::format("day-{}.db", day); }
    // A checkpoint that this log's gateway has signed, up to an entry.
    void sign(std::uint32_t place, const Digest &hash) const {
        const Sealer sealer = sealer_of(site.config());
        Checkpoint signed_;
        signed_.number = 1;
        signed_.at.place = place;
        signed_.at.hash = hash;
        CheckpointFile(site / "checkpoints", sealer).write(sealer.sign(signed_));
    }
    // The hours that the day began with, in hours from midnight.
    void keep(int opens, int closes, int ends) const {
        keep_hours(site.config(),
                   {day, midnight + std::chrono::hours(opens),
                    midnight + std::chrono::hours(closes), midnight + std::chrono::hours(ends)});
    }
};

// ---------------------------------------------------------------- a day that has not begun

TEST_CASE("a day that begins") {
    const Looked looked;
    CHECK(looked.said() == fmt::format("begins {} to {}", looked.day, looked.end));
    const RestartForecast forecast = looked.at(12h);
    CHECK(forecast.goes_well);
    CHECK_FALSE(forecast.has_begun);
    CHECK_FALSE(forecast.files_are_others);
    CHECK_FALSE(fs::exists(looked.log()));
    CHECK_FALSE(fs::exists(looked.site / "checkpoints"));
}

TEST_CASE("a start that ends") {
    const Looked looked;
    const auto fault = [&] {
        CHECK_FALSE(looked.goes_well());
        return looked.said();
    };
    looked.site.add("[operator]\nsocket = \"s\"\ngroup = \"no-such-group\"\n");
    CHECK(fault() == "ends with status 1: [operator] group = 'no-such-group': the system has no "
                     "group no-such-group");
    looked.site.put("gateway.toml", "[other]\n");
    CHECK(fault() == fmt::format("ends with status 1: {}: line 1: other is no part of it",
                                 looked.site.file().string()));
    fs::remove(looked.site.file());
    CHECK(fault() ==
          fmt::format("ends with status 1: {}: can't be read", looked.site.file().string()));
}

TEST_CASE("firms that could not log on") {
    const Looked looked;
    looked.site.put("credentials.toml",
                    "[DLR1]\nusername = \"d\"\npassword = \"$6$salt$hash\"\nends = \"20200101\"\n");
    const Words firms = {"DLR1 can't log on: its credentials held to 20200101",
                         "INV1 can't log on: it has no credentials"};
    const auto told = [&] {
        Words sentences = looked.at(12h).sentences;
        CHECK(sentences.at(0).starts_with("a restart now "));
        sentences.erase(sentences.begin());
        return sentences;
    };
    CHECK(told() == firms);
    looked.site.begin();
    CHECK(told() == firms);
    CHECK(looked.goes_well());
}

TEST_CASE("a day that opens later") {
    const Looked looked;
    looked.site.add("[day]\nopens = \"07:00\"\nends = \"17:00\"\n");
    CHECK(looked.said(7h - 1s) == fmt::format("opens no day yet: {} opens at {}", looked.day,
                                              text_of(looked.midnight + 7h)));
    CHECK(looked.said(7h) ==
          fmt::format("begins {} to {}", looked.day, text_of(looked.midnight + 17h)));
    CHECK(looked.said(17h - 1s).starts_with("begins "));
    CHECK(looked.said(17h) == fmt::format("opens no day yet: {} opens at {}", looked.next,
                                          text_of(looked.midnight + 31h)));
    CHECK(looked.goes_well(17h));
}

TEST_CASE("a venue that has a day of its own") {
    const Looked looked;
    looked.site.put("venue.toml", fmt::format("date = \"{}\"\n{}", looked.day, least_venue()));
    CHECK(looked.said() == "begins " + looked.day);
    looked.site.begin();
    CHECK(looked.said() == "goes on with " + looked.day);
    looked.site.put("venue.toml", fmt::format("date = \"{}\"\n{}", looked.day, other_venue()));
    CHECK(looked.said() ==
          fmt::format("with {} ends with status 1: the venue's configuration has a date, and is "
                      "not the one that the day began with",
                      looked.day));
    CHECK_FALSE(looked.goes_well());
    const Looked other;
    other.site.put("venue.toml", "date = \"20200101\"\n" + least_venue());
    CHECK(other.said() == fmt::format("ends with status 1: the venue's configuration is of "
                                      "20200101, and the day is {}",
                                      other.day));
    CHECK_FALSE(other.goes_well());
}

TEST_CASE("a log that a running gateway does not look at") {
    const Looked looked;
    looked.site.change("sqlite = \"day-{date}.db\"", "postgres = \"host=/nowhere\"");
    CHECK(looked.said(12h, Viewer::running_gateway) ==
          fmt::format("finds files that are right for {} to {}; its log was not looked at",
                      looked.day, looked.end));
    CHECK_FALSE(looked.goes_well()); // there is no such database
    CHECK(looked.said().starts_with(fmt::format("with {} ends with status 1: ", looked.day)));
}

TEST_CASE("days that would not be copied") {
    const Looked looked;
    looked.site.add("[copies]\nfolder = \"none\"\n");
    const std::string more =
        fmt::format("; no day is copied then: [copies] folder: there is no folder {}",
                    (looked.site / "none").string());
    CHECK(looked.said() == fmt::format("begins {} to {}{}", looked.day, looked.end, more));
    CHECK(looked.said(12h, Viewer::running_gateway).ends_with(more));
    CHECK(looked.goes_well());
    looked.site.begin();
    looked.site.put("program", "2");
    CHECK(looked.said() ==
          fmt::format("goes on with {} to {}; the venue's program is another than it began with, "
                      "and what that gives is compared with what firms were sent{}",
                      looked.day, looked.end, more));
    looked.site.put("program", "1");
    fs::create_directory(looked.site / "none");
    CHECK(looked.said() == fmt::format("goes on with {} to {}", looked.day, looked.end));
}

// ---------------------------------------------------------------- a day that goes on

TEST_CASE("a day that goes on") {
    const Looked looked;
    looked.site.begin();
    const std::string goes_on = fmt::format("goes on with {} to {}", looked.day, looked.end);
    CHECK(looked.said() == goes_on);
    CHECK(looked.at(12h).has_begun);
    CHECK(looked.goes_well());
    CHECK_FALSE(looked.at(12h).files_are_others);
    looked.site.put("venue.toml", other_venue());
    CHECK(looked.said() == goes_on + "; it does so with the configuration that it began with, and "
                                     "that of now applies to the next day");
    CHECK(looked.at(12h).files_are_others);
    CHECK(looked.at(12h).has_begun);
    CHECK(looked.goes_well());
}

// Also where the fault has several lines: the first is told.
TEST_CASE("a day that goes on while its files are at fault") {
    const Looked looked;
    looked.site.begin();
    const std::string at_fault = fmt::format("goes on with {} to {}; it does so by its entry 0, "
                                             "since the venue's configuration is at fault: ",
                                             looked.day, looked.end);
    looked.site.put("venue.toml", "alpha = 1\nbeta = 2\n" + least_venue());
    const std::string said = looked.said();
    CHECK_MESSAGE(said.starts_with(at_fault), said);
    CHECK_MESSAGE(said.find("alpha") != std::string::npos, said);
    CHECK_MESSAGE(said.find("beta") == std::string::npos, said);
    CHECK(looked.goes_well());
    looked.site.put("venue.toml", "date = \"20200101\"\n" + least_venue());
    CHECK(looked.said() == at_fault + "it is of 20200101");
    CHECK(looked.goes_well());
    looked.site.put("venue.toml", fmt::format("date = \"{}\"\n{}", looked.day, least_venue()));
    CHECK(looked.said() == "goes on with " + looked.day); // it may have a date by now
}

TEST_CASE("a day that goes on with another program") {
    const Looked looked;
    looked.site.begin();
    looked.site.put("program", "2");
    CHECK(looked.said() ==
          fmt::format("goes on with {} to {}; the venue's program is another than it began with, "
                      "and what that gives is compared with what firms were sent",
                      looked.day, looked.end));
    fs::remove(looked.site / "program");
    CHECK(looked.said().starts_with("ends with status 1: [venue] program: there is no file "));
}

TEST_CASE("a log that is not the one that was left") {
    const Looked looked;
    looked.site.begin();
    const std::string begun = (looked.site / "begun").string();
    fs::copy(looked.checkpoint(), begun);
    const auto refused = [&](const std::string &why) {
        CHECK(looked.said() == fmt::format("with {} ends with status 3: {}", looked.day, why));
        CHECK_FALSE(looked.goes_well());
    };
    looked.sign(5, sha256("x"));
    refused("its log lacks entry 5, which was signed");
    looked.sign(0, sha256("x"));
    refused("entry 0 of its log is not the one that was signed");
    looked.sign(5, Digest{}); // before its first entry
    CHECK(looked.said().starts_with("goes on with "));
    std::ofstream(looked.checkpoint(), std::ios::app) << "\n";
    CHECK(looked.said() == fmt::format("with {} ends with status 1: {} is no checkpoint of this "
                                       "log that one of its gateways signed",
                                       looked.day, looked.checkpoint().string()));
    fs::remove(looked.checkpoint());
    refused("there is a log, and no checkpoint of it");
    looked.site.add("[operator]\nsocket = \"s\"\n");
    CHECK(looked.said() == fmt::format("with {} opens no day and waits for `mireseason-admin log "
                                       "accept-loss`: there is a log, and no checkpoint of it",
                                       looked.day));
    looked.site.add("");
    fs::copy(begun, looked.checkpoint());
    CHECK(looked.said().starts_with("goes on with "));
    fs::remove(looked.log());
    refused("its log is not there, and a checkpoint of it is");
}

TEST_CASE("a log in the place of this day's") {
    const Looked venue;
    venue.site.begin([](Config &config) { config.venue = "north"; });
    CHECK(
        venue.said() ==
        fmt::format("with {} ends with status 1: the log is that of the venue `north`", venue.day));
    const Looked date;
    date.site.begin([](Config &config) {
        config.configuration = "date = \"20200101\"\n" + least_venue();
        config.firms.date = "20200101";
    });
    CHECK(date.said() ==
          fmt::format("with {} ends with status 3: the log of 20200101 is in its place", date.day));
    CHECK_THROWS_AS(date.site.begin(), LogNotAccepted); // as it is said
}

TEST_CASE("each of several venues") {
    const Looked looked;
    std::string text = looked.site.text;
    text.replace(text.find("[venue]"), 7, "[venue.north]");
    text.replace(text.find("day-{date}"), 10, "{venue}-{date}");
    text += "[venue.south]\ncommand = [\"sh\", \"./venue.sh\"]\nprogram = \"./program\"\n"
            "configuration = \"venue.toml\"\nconfined = false\n";
    looked.site.put("gateway.toml", text);
    looked.site.begin();
    fs::remove(looked.site / fmt::format("checkpoints/north-{}.checkpoint", looked.day));
    const RestartForecast forecast = looked.at(12h);
    CHECK_FALSE(forecast.goes_well);
    CHECK(forecast.sentences ==
          Words{fmt::format("a restart now with {} of north ends with status 3: there is a log, "
                            "and no checkpoint of it",
                            looked.day),
                fmt::format("a restart now begins {} of south to {}", looked.day, looked.end)});
}

// ---------------------------------------------------------------- its hours

TEST_CASE("a day whose hours were changed") {
    const Looked looked;
    looked.site.begin();
    looked.keep(7, 16, 17);
    const auto hours = [&](const char *opens, const char *ends) {
        looked.site.add(fmt::format("[day]\nopens = \"{}\"\nends = \"{}\"\n", opens, ends));
    };
    const std::string goes_on = "goes on with " + looked.day;
    hours("07:00", "17:00");
    CHECK(looked.said() == fmt::format("{} to {}", goes_on, text_of(looked.midnight + 17h)));
    hours("07:00", "18:00");
    CHECK(looked.said() == fmt::format("{} to {}", goes_on, text_of(looked.midnight + 18h)));
    hours("07:00", "16:00");
    CHECK(looked.said() ==
          fmt::format("{} to {}, and not to {} as it began: a request that is open then ends "
                      "without a notice",
                      goes_on, text_of(looked.midnight + 16h), text_of(looked.midnight + 17h)));
    CHECK(looked.goes_well());
    hours("13:00", "16:00");
    CHECK(looked.said() ==
          fmt::format("{} to {}, by the hours that it began with: by [day] as it is now it would "
                      "be closed, which takes `mireseason-admin end-day`",
                      goes_on, text_of(looked.midnight + 16h)));
    CHECK(looked.goes_well());
}

TEST_CASE("a day that a restart would close") {
    const Looked looked;
    looked.site.begin();
    looked.site.add("[day]\nopens = \"07:00\"\nends = \"17:00\"\n");
    const std::string opens = text_of(looked.midnight + 31h);
    const std::string closes =
        fmt::format("closes {}, which has begun and has not ended, since by [day] it is not open; "
                    "the next day, {}, opens at {}",
                    looked.day, looked.next, opens);
    const std::string waits = fmt::format("opens no day yet: {} opens at {}", looked.next, opens);
    CHECK(looked.said(18h) == closes);
    CHECK_FALSE(looked.goes_well(18h));
    looked.keep(7, 16, 18);
    CHECK(looked.said(18h) == waits);
    CHECK(looked.goes_well(18h));
    looked.keep(7, 16, 19);
    CHECK(looked.said(18h).starts_with("goes on with "));
    looked.site.end();
    CHECK(looked.said(18h) == waits);
}

// ---------------------------------------------------------------- its end

TEST_CASE("a day that has ended") {
    const Looked looked;
    looked.site.begin();
    looked.site.end();
    CHECK(looked.said() == fmt::format("opens again {} to {}", looked.day, looked.end));
    CHECK(looked.goes_well());
    const Looked ordered;
    ordered.site.begin();
    ordered.site.end("ann(7) end-day");
    const auto opens_at = [&ordered](SystemSeconds moment) {
        return fmt::format("opens no day yet: {} opens at {}", ordered.next, text_of(moment));
    };
    CHECK(ordered.said() == opens_at(ordered.midnight + 24h));
    CHECK(ordered.goes_well());
    ordered.site.add("[day]\nopens = \"13:00\"\nends = \"17:00\"\n");
    CHECK(ordered.said(12h) == opens_at(ordered.midnight + 37h));
    CHECK(ordered.said(14h) == opens_at(ordered.midnight + 37h));
}

TEST_CASE("a day that an operator has ended") {
    const auto is_ended = [](const std::string &act) {
        const Looked looked;
        looked.site.begin();
        looked.site.end(act);
        return is_ended_by_order({looked.site.config()}, looked.day);
    };
    CHECK(is_ended("ann(7) end-day"));
    CHECK(is_ended("ann(7) end-day --now because=\"x\""));
    CHECK_FALSE(is_ended("ann(7) halt because=\"end-day\""));
    CHECK_FALSE(is_ended(""));
}

// Its seal is of the configuration that it began with: the files may have another since.
TEST_CASE("a day that an operator has ended stays so with other files") {
    const Looked looked;
    looked.site.begin();
    looked.site.end("ann(7) end-day");
    Config config = looked.site.config();
    config.configuration += "# another\n";
    CHECK(is_ended_by_order({config}, looked.day));
}

TEST_CASE("a day that an operator may have ended, and that goes on all the same") {
    const Looked looked;
    const auto is_ended = [&] { return is_ended_by_order({looked.site.config()}, looked.day); };
    CHECK_FALSE(is_ended());
    looked.site.begin();
    CHECK_FALSE(is_ended());
    const Config config = looked.site.config();
    {
        const auto database = open_database(config);
        looked.site.put_act(config, *database, database->take_over().value(), "ann(7) end-day");
    }
    CHECK_FALSE(is_ended()); // its end is not signed
    looked.site.end();
    CHECK(is_ended());
    CHECK_FALSE(is_ended_by_order({config}, looked.next));
    Config other = config;
    other.venue = "north";
    CHECK_FALSE(is_ended_by_order({config, other}, looked.day));
    CHECK(is_ended_by_order({config, config}, looked.day));
    const std::string ended = (looked.site / "ended").string();
    fs::copy(looked.checkpoint(), ended);
    {
        const auto database = open_database(config);
        looked.site.put_act(config, *database, database->take_over().value(), "ann(7) resume");
    }
    CHECK_FALSE(is_ended()); // something stands behind it
    std::ofstream(looked.checkpoint(), std::ios::app) << "\n";
    CHECK_FALSE(is_ended());
    fs::remove(looked.checkpoint());
    CHECK_FALSE(is_ended());
    fs::copy(ended, looked.checkpoint());
    fs::remove(looked.log());
    CHECK_FALSE(is_ended());
}

// Who writes to the log and has no key can't have a day stay ended that its hours ended.
TEST_CASE("a day that somebody says an operator has ended") {
    const Looked looked;
    looked.site.begin();
    {
        const Config config = looked.site.config();
        const auto database = open_database(config);
        const std::uint32_t term = database->take_over().value();
        looked.site.put_act(config, *database, term, "ann(7) halt");
        looked.site.put_act(config, *database, term, "ann(7) resume");
    }
    looked.site.end();
    const auto changed_to = [&](const std::string &was, const std::string &is) {
        const auto connection = sqlite::connect(looked.log().string(), SQLITE_OPEN_READWRITE);
        sqlite::execute(connection.get(),
                        fmt::format("UPDATE entry SET line = CAST(replace(CAST(line AS TEXT), "
                                    "'{0}', '{1}') AS BLOB) WHERE instr(CAST(line AS TEXT), '{0}')",
                                    was, is)
                            .c_str());
        CHECK(sqlite3_changes(connection.get()) == 1);
        return is_ended_by_order({looked.site.config()}, looked.day);
    };
    CHECK_FALSE(changed_to(" halt", " end-day"));
    CHECK_FALSE(changed_to(" end-day", " halt"));
    CHECK_FALSE(changed_to(" resume", " end-day"));
}

// ---------------------------------------------------------------- with which configuration

TEST_CASE("the configuration that a start goes on with") {
    const Looked looked;
    const auto of_start = [&] {
        ConfigFiles files;
        return read_configs_of_start(files, looked.site.file(), looked.day).at(0);
    };
    const std::string begun = fmt::format("date = \"{}\"\n{}", looked.day, least_venue());
    const std::string others = fmt::format("date = \"{}\"\n{}", looked.day, other_venue());
    looked.site.put("venue.toml", "other = 1\n");
    CHECK_THROWS_AS(of_start(), VenueFileFaults);
    looked.site.put("venue.toml", "date = \"20200101\"\n" + least_venue());
    CHECK(of_start().firms.date == "20200101");
    looked.site.put("venue.toml", least_venue());
    looked.site.begin();
    CHECK(of_start().configuration == begun);
    looked.site.put("venue.toml", other_venue());
    CHECK(of_start().configuration == others); // they are right, and the day has its own
    looked.site.put("venue.toml", "other = 1\n");
    CHECK(of_start().configuration == begun);
    CHECK_FALSE(of_start().firms.has_own_date);
    looked.site.put("venue.toml", "date = \"20200101\"\n" + least_venue());
    CHECK(of_start().configuration == begun);
    // A firm that is new on the next day has credentials already.
    looked.site.put("credentials.toml", std::string(site_credentials) +
                                            "[NEW1]\nusername = \"n\"\npassword = \"$6$s$h\"\n");
    CHECK(of_start().credentials.size() == 2);
    // What is at fault itself is not gone on with.
    looked.site.put("credentials.toml", "x");
    CHECK_THROWS(of_start());
    ConfigFiles files;
    looked.site.put("credentials.toml", site_credentials);
    looked.site.put("venue.toml", other_venue());
    const Config tomorrow = read_next_configs(files, looked.site.file(), looked.day).at(0);
    CHECK(tomorrow.firms.date == looked.next);
    CHECK(tomorrow.configuration == fmt::format("date = \"{}\"\n{}", looked.next, other_venue()));
}

TEST_CASE("the configuration that a log began with") {
    const Looked looked;
    CHECK_FALSE(begun_configuration(looked.site.config()));
    CHECK(read_log(looked.site.config()) == nullptr);
    looked.site.begin();
    const auto begun = begun_configuration(looked.site.config());
    REQUIRE(begun);
    CHECK(*begun == fmt::format("date = \"{}\"\n{}", looked.day, least_venue()));
    std::ofstream(looked.log()) << std::string(4096, 'x');
    CHECK_FALSE(begun_configuration(looked.site.config()));
}

} // namespace gateway::tests
