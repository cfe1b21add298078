#!/bin/sh
# Prints the Debian packages that the gateway and the initiators of its example are built with.
echo cmake g++ pkg-config libquickfix-dev libboost-dev libsqlite3-dev libpqxx-dev libtomlplusplus-dev \
    prometheus-cpp-dev libspdlog-dev libssl-dev libcrypt-dev doctest-dev libhowardhinnant-date-dev tzdata python3
