// Gives a folder to one process alone: two would use the same numbers of the same session.
#ifndef DESK_FOLDER_LOCK_H
#define DESK_FOLDER_LOCK_H

#include "common/descriptor.h"

#include <string>

namespace desk {

class FolderLock {
  public:
    // Makes the folder where it is missing, for its owner alone. Throws std::runtime_error where it
    // can't, or where another process has the folder.
    explicit FolderLock(const std::string &folder);

  private:
    gateway::Descriptor file_;
};

} // namespace desk

#endif
