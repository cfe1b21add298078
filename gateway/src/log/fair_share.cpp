#include "log/fair_share.h"

namespace gateway {

std::size_t FairShare::count_in(const std::map<std::string, std::size_t> &counts,
                                const std::string &firm) {
    const auto found = counts.find(firm);
    return found == counts.end() ? 0 : found->second;
}

bool FairShare::has_room(const std::string &firm) const {
    const std::size_t next = count_in(in_batch_, firm);
    return next < limits_.batch && next + count_in(unanswered_of_, firm) < limits_.unanswered &&
           all_in_batch_ + unanswered_.size() < limits_.all_unanswered;
}

void FairShare::put(const std::string &firm) {
    ++in_batch_[firm];
    ++all_in_batch_;
}

void FairShare::committed(const std::string &firm, std::uint32_t place) {
    unanswered_.emplace_back(place, firm);
    ++unanswered_of_[firm];
}

void FairShare::answered(std::uint32_t place) {
    while (!unanswered_.empty() && unanswered_.front().first <= place) {
        --unanswered_of_[unanswered_.front().second];
        unanswered_.pop_front();
    }
}

} // namespace gateway
