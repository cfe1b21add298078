#include "recovery/unnoted_rows.h"

#include <utility>

namespace gateway {

namespace {

// Rows of one transaction.
constexpr std::size_t chunk = 512;

Sent row_of(const std::string &firm, GivenMessage given) {
    return {firm, given.number, given.place, std::move(given.frame), std::move(given.told)};
}

void commit(LogWriter &writer, Batch &batch) {
    if (!batch.empty()) {
        batch.is_repeated = true;
        writer.commit(batch);
    }
    batch = {};
}

} // namespace

void put_unnoted(LogWriter &writer, const std::map<std::string, FirmState> &states,
                 const Spool &spool) {
    Batch batch;
    for (const auto &[firm, state] : states) {
        for (std::uint32_t number = state.noted + 1; number <= state.given; ++number) {
            batch.sent.push_back(row_of(firm, spool.given(firm, number)));
            if (batch.sent.size() == chunk) {
                commit(writer, batch);
            }
        }
    }
    commit(writer, batch);
}

} // namespace gateway
