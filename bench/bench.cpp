// Reads a frame of FIXT.1.1 and finds one of its fields, and cuts a stream into messages: by
// fix_fields, by plain C++ written here by hand, and by QuickFIX. All three readers make the same
// checks of the frame; fix_fields and the plain splitter make the same checks of the stream.
#include "frames.h"

#include <quickfix/Message.h>
#include <quickfix/Parser.h>

#include <algorithm>
#include <chrono>
#include <cstdint>
#include <cstdio>
#include <cstdlib>
#include <cstring>
#include <string>
#include <vector>

extern "C" size_t fix_fields_cut(const uint8_t* stream, size_t len, size_t size);
extern "C" size_t fix_fields_find(const uint8_t* bytes, size_t len, uint32_t tag);

// One more than the length of the value, and 0 for no frame or no such field.
static size_t plain_find(const uint8_t* bytes, size_t len, uint32_t wanted) {
    static const char start[] = "8=FIXT.1.1\x01" "9=";
    const size_t start_len = sizeof start - 1;
    if (len > 4096 || len < start_len || std::memcmp(bytes, start, start_len) != 0) return 0;
    size_t at = start_len;
    size_t body_len = 0, digits = 0;
    while (at < len && digits < 6 && bytes[at] >= '0' && bytes[at] <= '9') {
        body_len = body_len * 10 + (bytes[at] - '0');
        ++at;
        ++digits;
    }
    if (digits == 0 || at >= len || bytes[at] != 1) return 0;
    ++at;
    if (len - at != body_len + 7) return 0;
    const size_t end = at + body_len;
    uint8_t sum = 0;
    for (size_t i = 0; i < at; ++i) sum += bytes[i];
    bool first = true;
    size_t found = 0;
    while (at < end) {
        uint32_t tag = 0;
        size_t tag_digits = 0;
        const uint8_t lead = bytes[at];
        while (at < end && tag_digits < 9 && bytes[at] >= '0' && bytes[at] <= '9') {
            sum += bytes[at];
            tag = tag * 10 + (bytes[at] - '0');
            ++at;
            ++tag_digits;
        }
        if (tag_digits == 0 || lead == '0' || at >= end || bytes[at] != '=') return 0;
        if (tag == 8 || tag == 9 || tag == 10) return 0;
        if (first && tag != 35) return 0;
        first = false;
        sum += bytes[at++];
        const size_t value = at;
        while (at < end && bytes[at] != 1) sum += bytes[at++];
        if (at >= end) return 0;
        if (tag == wanted && found == 0) found = at - value + 1;
        sum += bytes[at++];
    }
    if (first) return 0;
    const uint8_t* tail = bytes + end;
    if (std::memcmp(tail, "10=", 3) != 0 || tail[6] != 1) return 0;
    unsigned told = 0;
    for (int i = 3; i < 6; ++i) {
        if (tail[i] < '0' || tail[i] > '9') return 0;
        told = told * 10 + (tail[i] - '0');
    }
    return told == sum ? found : 0;
}

static size_t quickfix_find(const std::string& bytes, int tag) {
    try {
        FIX::Message message(bytes, true);
        return message.isSetField(tag) ? message.getField(tag).size() + 1 : 0;
    } catch (const FIX::Exception&) {
        return 0;
    }
}

// Cuts a stream that comes in pieces, with the checks of fix_fields: each fault at its byte.
class PlainSplitter {
public:
    void feed(const char* piece, size_t len, std::vector<std::string>& messages) {
        if (fault) return;
        kept.append(piece, len);
        if (kept.size() < wait) return;
        size_t at = 0;
        for (size_t len; (len = front(kept.data() + at, kept.size() - at)) != 0; at += len)
            messages.emplace_back(kept, at, len);
        kept.erase(0, at);
    }

private:
    // The length of the message at the front, or 0 where none is whole or there is a fault.
    size_t front(const char* bytes, size_t len) {
        static const char start[] = "8=FIXT.1.1\x01" "9=";
        const size_t start_len = sizeof start - 1;
        wait = 0;
        if (std::memcmp(bytes, start, len < start_len ? len : start_len) != 0) return fail();
        size_t at = start_len, body_len = 0;
        for (; at < len && at < start_len + 6 && bytes[at] >= '0' && bytes[at] <= '9'; ++at)
            body_len = body_len * 10 + (bytes[at] - '0');
        if (at >= len) return 0;
        if (at == start_len || bytes[at] != 1) return fail();
        const size_t end = at + 1 + body_len;
        if (end + 7 > 4096) return fail();
        if (len < end + 7) return wait = end + 7, 0;
        const char* tail = bytes + end;
        if (std::memcmp(tail, "10=", 3) != 0 || tail[6] != 1) return fail();
        for (int i = 3; i < 6; ++i)
            if (tail[i] < '0' || tail[i] > '9') return fail();
        return end + 7;
    }

    size_t fail() { return fault = true, 0; }

    std::string kept;
    size_t wait = 0;
    bool fault = false;
};

// How many messages each piece of a stream ends, all together.
static size_t plain_cut(const std::string& stream, size_t size) {
    PlainSplitter splitter;
    size_t count = 0;
    for (size_t at = 0; at < stream.size(); at += size) {
        std::vector<std::string> messages;
        splitter.feed(stream.data() + at, std::min(size, stream.size() - at), messages);
        count += messages.size();
    }
    return count;
}

static size_t quickfix_cut(const std::string& stream, size_t size) {
    FIX::Parser parser;
    size_t count = 0;
    for (size_t at = 0; at < stream.size(); at += size) {
        parser.addToStream(stream.data() + at, std::min(size, stream.size() - at));
        std::vector<std::string> messages;
        for (std::string message; parser.readFixMessage(message); message.clear())
            messages.push_back(message);
        count += messages.size();
    }
    return count;
}

// A Quote of 133 bytes.
static std::string quote() {
    return framed("35=S\x01" "49=DLR1\x01" "56=VENUE\x01" "34=1\x01" "52=20250314-09:00:10.000\x01" "50=T1\x01" "117=a1\x01"
                  "131=R1\x01" "48=BONDA0000001\x01" "22=4\x01" "133=99.50390625\x01");
}

// A frame of 4,096 bytes: fields of 5 to 20 bytes, the wanted one the last.
static std::string longest() {
    std::string body = "35=S\x01";
    unsigned tag = 1000;
    while (body.size() < 4071 - 60) body += std::to_string(tag) + "=" + std::string(tag % 16, 'x') + "\x01", ++tag;
    const std::string last = "117=a1\x01";
    const size_t rest = 4071 - body.size() - last.size();
    body += "58=" + std::string(rest - 4, 'y') + "\x01" + last;
    return framed(body);
}

static volatile size_t sink;

static size_t find(int reader, const std::string& bytes) {
    const uint8_t* at = reinterpret_cast<const uint8_t*>(bytes.data());
    switch (reader) {
        case 0: return fix_fields_find(at, bytes.size(), 117);
        case 1: return plain_find(at, bytes.size(), 117);
        default: return quickfix_find(bytes, 117);
    }
}

static size_t cut(int splitter, const std::string& stream, size_t size) {
    switch (splitter) {
        case 0: return fix_fields_cut(reinterpret_cast<const uint8_t*>(stream.data()), stream.size(), size);
        case 1: return plain_cut(stream, size);
        default: return quickfix_cut(stream, size);
    }
}

// The best time of nine runs, for one call.
template <class Call>
static double nanoseconds(int rounds, Call call) {
    double best = 1e18;
    for (int run = 0; run < 9; ++run) {
        const auto begin = std::chrono::steady_clock::now();
        for (int i = 0; i < rounds; ++i) sink = call();
        const std::chrono::duration<double, std::nano> took = std::chrono::steady_clock::now() - begin;
        if (took.count() / rounds < best) best = took.count() / rounds;
    }
    return best;
}

static const char* const names[] = {"fix_fields", "plain", "quickfix"};

static const size_t sizes[] = {1, 7, 512, 65536};

static void measure_frames(const std::string* frames) {
    for (int frame = 0; frame < 2; ++frame) {
        const std::string& bytes = frames[frame];
        const int rounds = bytes.size() < 1000 ? 100000 : 5000;
        double took[3];
        for (int reader = 0; reader < 3; ++reader)
            took[reader] = nanoseconds(reader == 2 ? rounds / 5 : rounds, [&] { return find(reader, bytes); });
        for (int reader = 0; reader < 3; ++reader)
            std::printf("%4zu bytes  %-10s %10.1f ns\n", bytes.size(), names[reader], took[reader]);
        std::printf("%4zu bytes  quickfix / fix_fields %.2f   fix_fields / plain %.2f\n", bytes.size(),
                    took[2] / took[0], took[0] / took[1]);
    }
}

static void measure_streams(const std::string& stream) {
    for (size_t size : sizes) {
        double took[3];
        for (int splitter = 0; splitter < 3; ++splitter)
            took[splitter] = nanoseconds(20, [&] { return cut(splitter, stream, size); }) / 1000;
        for (int splitter = 0; splitter < 3; ++splitter)
            std::printf("pieces of %5zu  %-10s %10.1f ns a message\n", size, names[splitter], took[splitter]);
        std::printf("pieces of %5zu  quickfix / fix_fields %.2f   fix_fields / plain %.2f\n", size,
                    took[2] / took[0], took[0] / took[1]);
    }
}

int main(int count, char** words) {
    const std::string frames[] = {quote(), longest()};
    if (frames[0].size() != 133 || frames[1].size() != 4096) return 2;
    std::string stream;  // 1,000 Quotes
    for (int i = 0; i < 1000; ++i) stream += frames[0];
    for (int reader = 0; reader < 3; ++reader) {
        for (const std::string& bytes : frames)
            if (find(reader, bytes) != 3) {
                std::fprintf(stderr, "%s finds %zu in %zu bytes\n", names[reader], find(reader, bytes), bytes.size());
                return 2;
            }
        for (size_t size : sizes)
            if (cut(reader, stream, size) != 1000) {
                std::fprintf(stderr, "%s cuts %zu messages in pieces of %zu\n", names[reader], cut(reader, stream, size), size);
                return 2;
            }
    }
    if (count == 4) {  // READER FRAME ROUNDS, or READER and 2 more than a place of sizes, for callgrind
        const int reader = std::atoi(words[1]), what = std::atoi(words[2]), rounds = std::atoi(words[3]);
        for (int i = 0; i < rounds; ++i) sink = what < 2 ? find(reader, frames[what]) : cut(reader, stream, sizes[what - 2]);
        return 0;
    }
    measure_frames(frames);
    measure_streams(stream);
    return 0;
}
