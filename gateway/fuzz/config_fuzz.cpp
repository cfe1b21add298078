// Fuzzes the reader of configurations. Whatever an operator's files contain, the gateway has to say
// what is wrong with them, within its stack and within seconds.
//
// Each input is a text of TOML. The fuzzer reads it as the venue's configuration, as the firms'
// credentials and as the gateway's own file, each time beside two right files. With a stack of
// 1 MiB (`ulimit -s 1024`) a text that gets past the limits of depth ends the fuzzer.
//
// usage: config_fuzz [options of libFuzzer] [CORPUS ..]
#include "common/toml_bounds.h"
#include "config/config.h"
#include "config/config_section.h"
#include "config/configuration_for_firm.h"
#include "config/venue_file.h"
#include "log/make_keys.h"
#include "venue_rows.h"

#include <cstdint>
#include <cstdlib>
#include <filesystem>
#include <iostream>
#include <stdexcept>
#include <string>

namespace {

namespace fs = std::filesystem;
using gateway::ConfigFiles;

constexpr std::string_view day = "20261124";

const std::string venue_text = gateway::tests::least_venue();

[[noreturn]] void violated(const std::string &what) {
    std::cerr << what << '\n';
    std::abort();
}

// A folder with the keys that the file names.
const fs::path &folder() {
    static const fs::path made = [] {
        std::string path = (fs::temp_directory_path() / "config-fuzz.XXXXXX").string();
        if (::mkdtemp(path.data()) == nullptr) {
            violated("there is no room for " + path);
        }
        gateway::make_keys(fs::path(path) / "keys", {"gateway"});
        std::atexit([] { fs::remove_all(folder()); });
        return fs::path(path);
    }();
    return made;
}

// How deep a node goes, itself the first.
std::size_t depth_of(const toml::node &node) {
    std::size_t below = 0;
    const auto look = [&](const toml::node &each) { below = std::max(below, depth_of(each)); };
    if (const toml::table *table = node.as_table()) {
        for (const auto &[key, value] : *table) {
            look(value);
        }
    } else if (const toml::array *array = node.as_array()) {
        for (const toml::node &value : *array) {
            look(value);
        }
    }
    return below + 1;
}

// Each bracket and each of a key's parts make a table: so a text within its limits has at most so
// many within another, and nothing that walks it needs more stack.
constexpr std::size_t deepest_tree = 2 + (gateway::deepest_toml + 1) * (gateway::deepest_toml + 1);

// What a reader throws is a fault with a text, and no other exception.
template <typename Read> void told(const Read &read) {
    try {
        read();
    } catch (const std::runtime_error &fault) {
        if (*fault.what() == '\0') {
            violated("a fault without a text");
        }
    }
}

void read_as_table(const std::string &text) {
    told([&] {
        if (depth_of(gateway::parse("a.toml", text)) > deepest_tree) {
            violated("a table is too deep");
        }
    });
}

void read_as_venue(const std::string &text) {
    told([&] {
        const gateway::VenueFile read = gateway::read_venue_file("venue.toml", text, day);
        const gateway::VenueFile again = gateway::read_venue_file("entry 0", read.text, read.date);
        if (again.text != read.text || again.firms != read.firms) {
            violated("a configuration that is taken reads otherwise in entry 0");
        }
        for (const std::string &firm : read.firms) {
            gateway::read_venue_file("hand-out", gateway::configuration_for_firm(read.text, firm),
                                     read.date);
        }
    });
}

void read_as_credentials(const std::string &text) {
    const fs::path file = folder() / "credentials.toml";
    ConfigFiles files;
    files.set(file, text);
    told([&] { gateway::credentials_of({"DLR1", "INV1"}, venue_text, file, files); });
}

void read_as_own(const std::string &text) {
    const fs::path own = folder() / "gateway.toml";
    ConfigFiles files;
    files.set(own, text);
    files.set(folder() / "venue.toml", venue_text);
    files.set(folder() / "credentials.toml", "# nobody\n");
    told([&] { gateway::read_configs(files, own, day); });
}

} // namespace

extern "C" int LLVMFuzzerTestOneInput(const std::uint8_t *data, std::size_t size) {
    const std::string text(reinterpret_cast<const char *>(data), size);
    read_as_table(text);
    read_as_venue(text);
    read_as_credentials(text);
    read_as_own(text);
    return 0;
}
