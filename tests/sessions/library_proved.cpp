// crates/fix_sessions_c. Without HAS_PROVED it is not linked, and the second implementation is
// alone.
#include "library.h"

namespace sessions {

#ifdef HAS_PROVED
const Library &proved_library() {
    static const Library library = {"the proved library", SESSION_CALLS};
    return library;
}
#endif

const std::vector<const Library *> &libraries() {
#ifdef HAS_PROVED
    static const std::vector<const Library *> all = {&proved_library(), &model_library()};
#else
    static const std::vector<const Library *> all = {&model_library()};
#endif
    return all;
}

} // namespace sessions
