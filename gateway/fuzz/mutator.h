// Changes what connections bring, field by field.
#ifndef GATEWAY_FUZZ_MUTATOR_H
#define GATEWAY_FUZZ_MUTATOR_H

#include "script.h"

#include <random>

namespace gateway::fuzz {

// Repeats, moves, swaps, drops and adds fields, gives them other values, copies, drops and moves
// messages, and mostly puts the right length and sum to what it made.
class Mutator {
  public:
    explicit Mutator(std::uint32_t seed) : draw_(seed) {}

    // One to four changes. What is longer than `most` afterwards is cut there.
    std::string mutated(const std::string &bytes, std::size_t most);
    // The begin of one and the end of another.
    std::string crossed(const std::string &one, const std::string &other, std::size_t most);

  private:
    using Fields = std::vector<std::string>;

    std::size_t below(std::size_t count) { return draw_() % count; }
    void change(Script &script);
    void change_messages(Script &script);
    void change_fields(ScriptMessage &message);
    void repeat(Fields &fields);
    std::string value_for(std::uint32_t tag);
    std::string new_field();
    void seal_most(Script &script);
    std::string cut(Script script, std::size_t most);

    std::minstd_rand draw_;
};

} // namespace gateway::fuzz

#endif
