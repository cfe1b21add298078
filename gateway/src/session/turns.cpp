#include "session/turns.h"

namespace gateway {

namespace {

// How often one that waits is asked whether it gives up, and looks whether its pause is over.
constexpr auto between_questions = std::chrono::milliseconds(10);

// So many addresses are remembered.
constexpr std::size_t most_addresses = 4096;

} // namespace

bool Turns::take(const std::string &address, const std::function<bool()> &gives_up,
                 const std::function<Time()> &work) {
    {
        std::unique_lock<std::mutex> lock(mutex_);
        if (!wait(lock, address, gives_up)) {
            return false;
        }
    }
    Time from;
    try {
        from = work();
    } catch (...) {
        give_back(address, Time());
        throw;
    }
    give_back(address, from);
    return true;
}

bool Turns::wait(std::unique_lock<std::mutex> &lock, const std::string &address,
                 const std::function<bool()> &gives_up) {
    waiting_.emplace_back();
    const auto own = std::prev(waiting_.end());
    own->address = address;
    call_next();
    while (!own->has_turn && !gives_up()) {
        own->called.wait_for(lock, between_questions);
        // Nobody calls it when the pause of its address is over.
        if (!own->has_turn && free_ > 0 && may_be_served(address)) {
            call_next();
        }
    }
    const bool has_turn = own->has_turn;
    waiting_.erase(own);
    return has_turn;
}

void Turns::give_back(const std::string &address, Time from) {
    const std::lock_guard<std::mutex> lock(mutex_);
    served_[address].now = false;
    served_[address].from = from;
    ++free_;
    call_next();
    forget();
}

bool Turns::may_be_served(const std::string &address) const {
    const auto found = served_.find(address);
    return found == served_.end() ||
           (!found->second.now && found->second.from <= std::chrono::steady_clock::now());
}

std::list<Turns::Waiting>::iterator Turns::next() {
    auto found = waiting_.end();
    for (auto each = waiting_.begin(); each != waiting_.end(); ++each) {
        const bool may = !each->has_turn && may_be_served(each->address);
        if (may && (found == waiting_.end() ||
                    served_[each->address].last < served_[found->address].last)) {
            found = each;
        }
    }
    return found;
}

void Turns::call_next() {
    while (free_ > 0) {
        const auto first = next();
        if (first == waiting_.end()) {
            return;
        }
        served_[first->address] = {++turns_, true, {}};
        --free_;
        first->has_turn = true;
        first->called.notify_one();
    }
}

// Where nobody waits, nobody is to be preferred; but a pause goes on.
void Turns::forget() {
    if (!waiting_.empty() && served_.size() <= most_addresses) {
        return;
    }
    std::erase_if(served_, [this](const auto &each) { return may_be_served(each.first); });
}

std::size_t Turns::waiting() const {
    const std::lock_guard<std::mutex> lock(mutex_);
    return waiting_.size();
}

} // namespace gateway
