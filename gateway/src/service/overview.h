// The gateway's page, which an operator looks at first.
#ifndef GATEWAY_SERVICE_OVERVIEW_H
#define GATEWAY_SERVICE_OVERVIEW_H

#include "health/condition.h"
#include "health/firm_metrics.h"
#include "health/queue_size.h"
#include "venue/open_requests.h"

#include <string>
#include <vector>

namespace gateway {

// What the page shows.
struct Overview {
    Condition condition;
    std::string version;
    std::vector<FirmMetrics::Counts> firms;
    std::vector<OpenRequests::Open> requests;
    std::vector<QueueSize> queues;
    std::vector<std::string> events; // lines, the latest last
};

// The whole page. Whatever a text has in it is shown as text.
std::string html_of(const Overview &seen);

} // namespace gateway

#endif
