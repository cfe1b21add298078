#include "record.h"

#include "message.h"
#include "safe_names.h"

#include <algorithm>
#include <filesystem>
#include <utility>

namespace desk {

namespace {

constexpr std::size_t most_waiting = 4096; // happenings; QuickFIX reads no further then

} // namespace

Record::Record(std::string folder, std::function<void()> wake)
    : folder_(std::move(folder)), wake_(std::move(wake)) {
    open(date_of(now()));
}

std::string Record::path_of(const std::string &date) const {
    return folder_ + "/journal-" + date;
}

void Record::open(const std::string &date) {
    date_ = date;
    sent_.clear();
    next_sent_ = 1;
    next_received_ = 1;
    journal_ = std::make_shared<Journal>(path_of(date), [this](const Entry &entry) {
        count(entry);
        if (entry.kind != Entry::Kind::session) {
            waiting_.emplace_back(entry);
        }
    });
}

void Record::count(const Entry &entry) {
    if (entry.kind == Entry::Kind::undelivered || entry.kind == Entry::Kind::note) {
        return;
    }
    const int number = static_cast<int>(Message(entry.bytes).number(tag::msg_seq_num));
    if (entry.kind == Entry::Kind::received) {
        next_received_ = std::max(next_received_, number + 1);
    } else {
        sent_[number] = entry.bytes;
        next_sent_ = std::max(next_sent_, number + 1);
    }
}

// What leaves is safe against a power cut first, and so is that something never will; what came is
// asked for again. The disk is waited for without the lock: whoever takes does not wait for it.
void Record::append(std::unique_lock<std::mutex> &lock, Entry entry) {
    using Kind = Entry::Kind;
    const Kind kind = entry.kind;
    journal_->write(entry);
    count(entry);
    if (kind != Kind::session) {
        waiting_.emplace_back(std::move(entry));
    }
    const std::shared_ptr<Journal> journal = journal_;
    lock.unlock();
    wake_();
    if (kind != Kind::received) {
        journal->synchronise();
    }
}

std::deque<Happening> Record::take() {
    std::deque<Happening> all;
    {
        const std::lock_guard lock(mutex_);
        all.swap(waiting_);
    }
    taken_.notify_all();
    return all;
}

void Record::received(const std::string &raw) {
    std::unique_lock lock(mutex_);
    taken_.wait(lock, [this] { return lets_through_ || waiting_.size() < most_waiting; });
    append(lock, Entry{Entry::Kind::received, now(), raw});
}

void Record::undelivered(int number) {
    std::unique_lock lock(mutex_);
    append(lock, Entry{Entry::Kind::undelivered, now(), std::to_string(number)});
}

void Record::note(const std::string &text) {
    std::unique_lock lock(mutex_);
    append(lock, Entry{Entry::Kind::note, now(), text});
}

void Record::skip_to(int number) {
    const std::lock_guard lock(mutex_);
    next_sent_ = std::max(next_sent_, number);
}

void Record::let_through() {
    {
        const std::lock_guard lock(mutex_);
        lets_through_ = true;
    }
    taken_.notify_all();
}

std::string Record::date() const {
    const std::lock_guard lock(mutex_);
    return date_;
}

void Record::begin_day() {
    {
        const std::lock_guard lock(mutex_);
        const std::string today = date_of(now());
        // A second session of one day: the first one's journal is kept beside it.
        for (int count = 1; today == date_ && std::filesystem::exists(path_of(today)); ++count) {
            const std::string aside = path_of(today) + "." + std::to_string(count);
            if (!std::filesystem::exists(aside)) {
                rename_safely(path_of(today), aside);
            }
        }
        waiting_.emplace_back();
        open(today);
    }
    wake_();
}

int Record::next_sent() const {
    const std::lock_guard lock(mutex_);
    return next_sent_;
}

int Record::next_received() const {
    const std::lock_guard lock(mutex_);
    return next_received_;
}

void Record::keep(int, bool is_application, const std::string &raw) { // its number is in it
    std::unique_lock lock(mutex_);
    const auto kind = is_application ? Entry::Kind::sent : Entry::Kind::session;
    append(lock, Entry{kind, now(), raw});
}

std::vector<std::pair<int, std::string>> Record::kept(int first, int last) const {
    const std::lock_guard lock(mutex_);
    std::vector<std::pair<int, std::string>> all;
    for (auto at = sent_.lower_bound(first); at != sent_.end() && at->first <= last; ++at) {
        all.emplace_back(*at);
    }
    return all;
}

} // namespace desk
