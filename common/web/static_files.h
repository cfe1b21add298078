// Holds the files of a site in memory: no request opens a file.
#ifndef WEB_STATIC_FILES_H
#define WEB_STATIC_FILES_H

#include "exchange.h"

#include <map>
#include <optional>
#include <string>
#include <string_view>

namespace web {

class StaticFiles {
  public:
    // The name's ending says what it is: html, css, js or svg. Throws std::runtime_error.
    void add(const std::string &name, std::string text);
    // All files of such endings in a folder. Throws std::runtime_error.
    void add_folder(const std::string &folder);

    // `/` is index.html. Nothing where there is no such file.
    std::optional<Response> find(const Request &request) const;

  private:
    struct File {
        std::string content_type;
        std::string text;
        std::string tag; // for If-None-Match
    };
    std::map<std::string, File, std::less<>> files_;
};

} // namespace web

#endif
