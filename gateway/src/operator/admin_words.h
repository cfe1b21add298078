// Writes and reads one request at the operator's socket: mireseason-admin writes it, and the
// gateway reads it.
#ifndef GATEWAY_OPERATOR_ADMIN_WORDS_H
#define GATEWAY_OPERATOR_ADMIN_WORDS_H

#include <optional>
#include <string>
#include <string_view>
#include <vector>

namespace gateway {

// `1 text WORD ..` or `1 json WORD ..` and a line feed: 1 is the version of this form. Of a word
// every byte that is no printable ASCII, a space and a percent sign stand as %HH, so that a line
// feed in a word is none of the line. An empty word is `%`.
struct AdminRequest {
    bool wants_json = false;
    std::vector<std::string> words; // one at least
};

// The most bytes of a request, with its line feed.
constexpr std::size_t longest_request = 1024;

// The first line of an answer; the rest is what is to be printed. Where it is `error` that says
// what is wrong, and nothing was done.
constexpr std::string_view answer_is_good = "ok\n";
constexpr std::string_view answer_is_error = "error\n";

// Or a stream of bytes follows: pieces, each behind its length in eight hexadecimal digits, up to a
// piece of no bytes. In the place of a length `piece_is_fault` says that the stream is not whole,
// and what follows says why.
constexpr std::string_view answer_is_stream = "stream\n";
constexpr std::string_view piece_is_fault = "--------";
constexpr std::size_t digits_of_length = 8;
constexpr std::size_t longest_piece = std::size_t{64} << 10;
std::string length_of_piece(std::size_t bytes);

// Where the socket is if nobody says otherwise.
constexpr const char *usual_socket = "/run/mireseason/admin.sock";

// With the line feed.
std::string line_of(const AdminRequest &request);

// Reads what line_of wrote, without the line feed; nothing where it is of another form.
std::optional<AdminRequest> request_of(std::string_view line);

} // namespace gateway

#endif
