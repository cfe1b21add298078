// A process that can begin no thread.
#ifndef GATEWAY_TESTS_NO_THREADS_H
#define GATEWAY_TESTS_NO_THREADS_H

#include "check.h"

#include <cstddef>

#include <pthread.h>

namespace gateway::tests {

// As one whose unit, user or machine has as many threads as it may (EAGAIN), for as long as it
// lives: no machine has room for the stack of another one. Those that are there go on.
class NoThreads {
  public:
    NoThreads() {
        check(::pthread_getattr_default_np(&usual_) == 0, "threads have no size");
        pthread_attr_t none{};
        check(::pthread_getattr_default_np(&none) == 0 &&
                  ::pthread_attr_setstacksize(&none, std::size_t{1} << 47U) == 0 &&
                  ::pthread_setattr_default_np(&none) == 0,
              "their size can't be set");
        ::pthread_attr_destroy(&none);
    }
    ~NoThreads() {
        ::pthread_setattr_default_np(&usual_);
        ::pthread_attr_destroy(&usual_);
    }
    NoThreads(const NoThreads &) = delete;
    NoThreads &operator=(const NoThreads &) = delete;

  private:
    pthread_attr_t usual_{};
};

} // namespace gateway::tests

#endif
