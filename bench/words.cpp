// Times of a bare compare-and-exchange on a row of std::atomic words: prints the same lines as
// words.rt, each case's name and the hundredths of a nanosecond that a call took.
#include <algorithm>
#include <atomic>
#include <chrono>
#include <cstdint>
#include <cstdio>
#include <thread>
#include <vector>

using Row = std::vector<std::atomic<uint64_t>>;

static const uint32_t words = 1 << 20;
static const uint32_t rounds = 9;
static const uint32_t threads_at_once = 4;

// What the word is found to be, which becomes 1 where it was 0.
static uint64_t withdraw(std::atomic<uint64_t>& word) {
    uint64_t found = 0;
    word.compare_exchange_strong(found, 1, std::memory_order_seq_cst);
    return found;
}

// Each of some threads asks `calls` words; their nanoseconds together.
static uint64_t times(Row& row, uint32_t threads, uint32_t calls, bool one_word) {
    std::atomic<uint32_t> here{0};
    std::vector<uint64_t> took(threads, 0);
    std::vector<std::thread> all;
    for (uint32_t i = 0; i < threads; ++i) {
        all.emplace_back([&, i] {
            here.fetch_add(1);
            for (uint32_t look = 0; look < 1000000 && here.load() < threads; ++look) {}
            const auto start = std::chrono::steady_clock::now();
            uint64_t lifted = 0;
            if (one_word) {
                for (uint32_t k = 0; k < calls; ++k) lifted += withdraw(row[0]) == 2;
            } else {
                const uint32_t from = i * calls;
                for (uint32_t w = from; w < from + calls; ++w) lifted += withdraw(row[w]) == 2;
            }
            const auto end = std::chrono::steady_clock::now();
            took[i] = lifted + uint64_t(std::chrono::nanoseconds(end - start).count());
        });
    }
    for (std::thread& thread : all) thread.join();
    uint64_t sum = 0;
    for (uint64_t time : took) sum += time;
    return sum;
}

int main() {
    uint64_t best[5];
    std::fill(best, best + 5, UINT64_MAX);
    for (uint32_t round = 0; round < rounds; ++round) {
        const uint32_t part = words / threads_at_once;
        Row alone(words), apart(words);
        best[0] = std::min(best[0], times(alone, 1, words, false));
        best[1] = std::min(best[1], times(alone, 1, words, false));
        best[2] = std::min(best[2], times(apart, threads_at_once, part, false));
        best[3] = std::min(best[3], times(apart, threads_at_once, part, false));
        best[4] = std::min(best[4], times(apart, threads_at_once, words, true) / threads_at_once);
    }
    const char* names[5] = {
        "open_alone", "settled_alone", "open_apart", "settled_apart", "one_word"};
    for (int i = 0; i < 5; ++i) {
        std::printf("%s %llu\n", names[i], (unsigned long long)(best[i] * 100 / words));
    }
}
