// Reads earlier days from their journals, and never writes there.
#ifndef DESK_ARCHIVE_H
#define DESK_ARCHIVE_H

#include "bond_values.h"
#include "market.h"
#include "terms.h"

#include <functional>
#include <string>
#include <vector>

#include <nlohmann/json.hpp>

namespace desk {

class Archive {
  public:
    // Market and values have to outlive it.
    Archive(std::string folder, Role role, const Market &market, const BondValues &values)
        : folder_(std::move(folder)), role_(role), market_(market), values_(values) {}

    // The days before this one that have a journal, YYYYMMDD, the newest first.
    std::vector<std::string> days(const std::string &today) const;

    // The requests of one day in which all words of a text are found, in the order in which they
    // came, at most so many. Waits for the disk, on any thread. Throws std::runtime_error where the
    // journal can't be read.
    std::vector<nlohmann::json> requests(const std::string &day, const std::string &words,
                                         std::size_t most) const;

  private:
    const std::string folder_;
    const Role role_;
    const Market &market_;
    const BondValues &values_;
};

} // namespace desk

#endif
