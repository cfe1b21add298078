#!/bin/sh
# Prints the Debian packages that the desk and the dealers of the example are built with.
echo cmake g++ pkg-config libquickfix-dev libboost-dev nlohmann-json3-dev libtomlplusplus-dev libssl-dev \
    libcrypt-dev libquantlib0-dev doctest-dev
