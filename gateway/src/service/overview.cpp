#include "service/overview.h"

#include <string_view>
#include <utility>

#include <fmt/format.h>

namespace gateway {

namespace {

constexpr std::string_view head = R"(<!doctype html>
<html lang="en">
<meta charset="utf-8">
<meta name="viewport" content="width=device-width, initial-scale=1">
<meta name="color-scheme" content="light dark">
<title>Mireseason gateway</title>
<link rel="stylesheet" href="page.css">
<script src="page.js" defer></script>
<noscript><meta http-equiv="refresh" content="5"></noscript>
)";

// Of the open requests.
constexpr std::ptrdiff_t most_requests = 100;

std::string escaped(std::string_view text) {
    std::string html;
    html.reserve(text.size());
    for (const char c : text) {
        switch (c) {
        case '&':
            html += "&amp;";
            break;
        case '<':
            html += "&lt;";
            break;
        case '>':
            html += "&gt;";
            break;
        case '\'':
            html += "&#39;";
            break;
        case '"':
            html += "&quot;";
            break;
        default:
            html += c;
        }
    }
    return html;
}

// Why business is not taken has lines of its own.
std::string condition_html(Condition condition) {
    const std::vector<std::string> not_taken = std::exchange(condition.not_taken, {});
    const char *kind = condition.fault()                 ? "fault"
                       : condition.phase == Phase::ready ? "ready"
                                                         : "waits";
    std::string html =
        fmt::format("<p class=\"condition {}\">{}</p>\n", kind, escaped(condition.words()));
    for (const std::string &line : not_taken) {
        html += fmt::format("<p class=\"condition fault\">{}</p>\n", escaped(line));
    }
    return html;
}

std::string cell(double number) {
    return fmt::format("<td class=\"number\">{:.0f}</td>", number);
}

std::string cell(std::string_view text) {
    return fmt::format("<td>{}</td>", escaped(text));
}

std::string session_words(const FirmMetrics::Counts &firm) {
    const std::string words = firm.is_suspended ? "suspended" : firm.is_on ? "on" : "off";
    return firm.doubt.empty() ? words : words + ", " + firm.doubt;
}

std::string firm_html(const FirmMetrics::Counts &firm) {
    const std::string name = firm.venue.empty() ? firm.firm : firm.firm + " of " + firm.venue;
    return "<tr><th scope=\"row\">" + escaped(name) + "</th>" + cell(session_words(firm)) +
           cell(firm.messages) + cell(firm.requests) + cell(firm.quotes) + cell(firm.hits) +
           cell(firm.refusals) + cell(firm.waiting_bytes) + "</tr>\n";
}

// A table that scrolls by itself where the window is narrow.
std::string table_html(std::string_view title, std::string_view head, const std::string &rows) {
    if (rows.empty()) {
        return fmt::format("<section><h2>{}</h2>\n<p class=\"none\">None.</p></section>\n", title);
    }
    return fmt::format("<section><h2>{}</h2>\n<div class=\"wide\" tabindex=\"0\" role=\"region\" "
                       "aria-label=\"{}\"><table>\n<thead><tr>{}</tr></thead>\n<tbody>\n{}"
                       "</tbody></table></div></section>\n",
                       title, title, head, rows);
}

std::string firms_html(const std::vector<FirmMetrics::Counts> &firms) {
    std::string rows;
    for (const FirmMetrics::Counts &firm : firms) {
        rows += firm_html(firm);
    }
    return table_html("Firms, counted since this gateway's start",
                      "<th scope=\"col\">Firm</th><th scope=\"col\">Session</th>"
                      "<th scope=\"col\" class=\"number\">Messages</th>"
                      "<th scope=\"col\" class=\"number\">Requests</th>"
                      "<th scope=\"col\" class=\"number\">Quotes</th>"
                      "<th scope=\"col\" class=\"number\">Hits</th>"
                      "<th scope=\"col\" class=\"number\">Refusals</th>"
                      "<th scope=\"col\" class=\"number\">Bytes waiting</th>",
                      rows);
}

std::string requests_html(const std::vector<OpenRequests::Open> &requests) {
    std::string rows;
    for (const OpenRequests::Open &each : requests) {
        if (&each - requests.data() == most_requests) {
            break;
        }
        rows += "<tr>" + cell(each.firm) + cell(each.request) + cell(each.accepted) + "</tr>\n";
    }
    const std::string title = fmt::format("Open requests: {}", requests.size());
    return table_html(title,
                      "<th scope=\"col\">Investor</th><th scope=\"col\">Request</th>"
                      "<th scope=\"col\">Accepted (UTC)</th>",
                      rows);
}

std::string queues_html(const std::vector<QueueSize> &queues) {
    std::string rows;
    for (const QueueSize &queue : queues) {
        rows += "<tr>" + cell(queue.what) + cell(queue.size) + "</tr>\n";
    }
    return table_html("Queues",
                      "<th scope=\"col\">What waits</th>"
                      "<th scope=\"col\" class=\"number\">How many</th>",
                      rows);
}

std::string events_html(const std::vector<std::string> &events) {
    std::string html = "<section><h2>Last events</h2>\n<ol class=\"events\">\n";
    for (auto line = events.rbegin(); line != events.rend(); ++line) {
        html += fmt::format("<li>{}</li>\n", escaped(*line));
    }
    return html + "</ol></section>\n";
}

} // namespace

std::string html_of(const Overview &seen) {
    std::string html(head);
    html += "<main>\n<h1>Mireseason gateway</h1>\n";
    html += condition_html(seen.condition);
    html += firms_html(seen.firms);
    html += requests_html(seen.requests);
    html += queues_html(seen.queues);
    html += events_html(seen.events);
    html += fmt::format("<footer>{}</footer>\n</main>\n</html>\n", escaped(seen.version));
    return html;
}

} // namespace gateway
