// A trader of the unit tests.
#ifndef DESK_TESTS_TRADER_OF_H
#define DESK_TESTS_TRADER_OF_H

#include "config.h"

#include <string>

namespace desk_tests {

// One who may act, without a password.
inline desk::Trader trader_of(const std::string &login, const std::string &name) {
    desk::Trader one;
    one.login = login;
    one.name = name;
    one.may_act = true;
    one.names = {name};
    return one;
}

} // namespace desk_tests

#endif
