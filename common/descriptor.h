// A file descriptor that its owner closes at its end. The desk has it too.
#ifndef GATEWAY_DESCRIPTOR_H
#define GATEWAY_DESCRIPTOR_H

#include <utility>

#include <unistd.h>

namespace gateway {

class Descriptor {
  public:
    Descriptor() = default; // none
    // What a call of the system returned: below 0 it is none.
    explicit Descriptor(int number) : number_(number) {}
    ~Descriptor() { close(); }
    Descriptor(Descriptor &&other) noexcept : number_(std::exchange(other.number_, -1)) {}
    Descriptor &operator=(Descriptor &&other) noexcept {
        if (this != &other) {
            close();
            number_ = std::exchange(other.number_, -1);
        }
        return *this;
    }

    int number() const { return number_; }
    void close() {
        if (number_ >= 0) {
            ::close(std::exchange(number_, -1));
        }
    }

  private:
    int number_ = -1;
};

} // namespace gateway

#endif
