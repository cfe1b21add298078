// The second implementation: gateway/session_model, built with this prefix.
#define SESSION_PREFIX model_
#include "library.h"

namespace sessions {

const Library &model_library() {
    static const Library library = {"the second implementation", SESSION_CALLS};
    return library;
}

} // namespace sessions
