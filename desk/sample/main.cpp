// sample-firm CONFIG: a dealer that quotes by itself, or an investor that asks by itself, until
// SIGTERM.
#include "fix_config.h"
#include "folder_lock.h"
#include "market.h"
#include "sample_dealer.h"
#include "sample_investor.h"
#include "toml_file.h"

#include <exception>
#include <iostream>
#include <memory>
#include <string>

#include <boost/asio/io_context.hpp>
#include <boost/asio/signal_set.hpp>
#include <sys/stat.h>

namespace {

void run(const std::string &path) {
    const toml::table text = desk::read_toml(path);
    const desk::TomlTable file(path, "", text);
    file.allow({"firm", "role", "market", "data", "trader", "fix"});
    const std::string firm = file.text("firm");
    const bool is_dealer = file.text("role") == "dealer";
    const sample::Settings settings{
        desk::fix_settings_of(file.table("fix"), firm),
        desk::read_market(file.file("market"), firm,
                          is_dealer ? desk::Role::dealer : desk::Role::investor),
        file.text("trader"), file.file("data")};
    const desk::FolderLock lock(settings.data);
    boost::asio::io_context io(1);
    std::unique_ptr<sample::SampleFirm> own;
    if (is_dealer) {
        own = std::make_unique<sample::SampleDealer>(io, settings);
    } else {
        own = std::make_unique<sample::SampleInvestor>(io, settings);
    }
    boost::asio::signal_set signals(io, SIGINT, SIGTERM);
    signals.async_wait([&](auto, int) { io.stop(); });
    own->start();
    io.run();
    own->stop();
}

} // namespace

int main(int count, char **words) {
    if (count != 2) {
        std::cerr << "usage: sample-firm CONFIG\n";
        return 2;
    }
    try {
        ::umask(S_IRWXG | S_IRWXO);
        run(words[1]);
        return 0;
    } catch (const std::exception &fault) {
        std::cerr << "sample-firm: " << fault.what() << '\n';
        return 1;
    }
}
