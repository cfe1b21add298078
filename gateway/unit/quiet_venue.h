// A venue's program for tests, as a script of the shell.
#ifndef GATEWAY_TESTS_QUIET_VENUE_H
#define GATEWAY_TESTS_QUIET_VENUE_H

namespace gateway::tests {

// A venue that says nothing but that it has read each line, and not even that while the file
// `waits` is beside it.
inline constexpr const char *venue_text = R"sh(
lines=0 begun=
while IFS= read -r line; do
    lines=$((lines + 1))
    while [ -e "${0%/*}/waits" ]; do sleep 0.01; done
    case $begun$line in
    %%) begun=+ ;;
    +*) echo "done $lines" ;;
    esac
done
)sh";

} // namespace gateway::tests

#endif
