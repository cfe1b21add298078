// Keeps each trader's saved groups of dealers.
#ifndef DESK_GROUPS_H
#define DESK_GROUPS_H

#include <functional>
#include <map>
#include <string>
#include <vector>

namespace desk {

using Groups = std::map<std::string, std::vector<std::string>>;

class GroupStore {
  public:
    explicit GroupStore(std::string path);

    const Groups &of(const std::string &login) const;
    // Why it can't be, in words; an empty text where it is, for as long as the desk runs. No
    // dealers: the name is forgotten.
    std::string set(const std::string &login, const std::string &name,
                    const std::vector<std::string> &dealers);
    // What keeps the groups as they are now over a restart: it waits for the disk, on any thread,
    // and says in words why not.
    std::function<std::string()> writer() const;

  private:
    const std::string path_;
    std::map<std::string, Groups> groups_;
};

} // namespace desk

#endif
