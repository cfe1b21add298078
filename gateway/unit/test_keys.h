// Keys of a gateway for tests.
#ifndef GATEWAY_TESTS_TEST_KEYS_H
#define GATEWAY_TESTS_TEST_KEYS_H

#include "config/config.h"
#include "log/make_keys.h"
#include "log/seals.h"

#include <filesystem>
#include <memory>

namespace gateway::tests {

// In a folder, where they are made if there are none.
inline std::shared_ptr<const SealKeys> test_keys(const std::filesystem::path &folder) {
    if (!std::filesystem::exists(folder)) {
        make_keys(folder, {"gateway"});
    }
    return read_seal_keys({folder / "seal.key", folder / "gateway.pem", {folder / "gateway.pub"}});
}

// Of a configuration whose files are in this folder.
inline void give_keys(Config &config, const std::filesystem::path &folder) {
    config.keys = test_keys(folder / "keys");
    config.checkpoints = folder / "checkpoints";
}

} // namespace gateway::tests

#endif
