// Recognises a day that an operator has ended early: no start opens it again.
#ifndef GATEWAY_SERVICE_ENDED_DAY_H
#define GATEWAY_SERVICE_ENDED_DAY_H

#include "config/config.h"

#include <string_view>
#include <vector>

namespace gateway {

// Whether these configurations are of this day (eight digits), an operator has ended it, and each
// log of it stands as it was signed then: nothing is to be added to it. Not where a log can't be
// read, or is another one: a start says so. Throws nothing.
bool is_ended_by_order(const std::vector<Config> &configs, std::string_view date);

} // namespace gateway

#endif
