#include "static_files.h"

#include "secrets.h"

#include <filesystem>
#include <fstream>
#include <sstream>
#include <stdexcept>

namespace web {

namespace {

namespace fs = std::filesystem;

const char *content_type_of(std::string_view name) {
    if (name.ends_with(".html")) {
        return "text/html; charset=utf-8";
    }
    if (name.ends_with(".css")) {
        return "text/css; charset=utf-8";
    }
    if (name.ends_with(".js")) {
        return "text/javascript; charset=utf-8";
    }
    return name.ends_with(".svg") ? "image/svg+xml" : nullptr;
}

} // namespace

void StaticFiles::add(const std::string &name, std::string text) {
    const char *type = content_type_of(name);
    if (type == nullptr) {
        throw std::runtime_error(name + ": no page, style, script or picture");
    }
    const std::string tag = '"' + digest_of(text).substr(0, 32) + '"';
    files_[name] = File{type, std::move(text), tag};
}

void StaticFiles::add_folder(const std::string &folder) {
    for (const fs::directory_entry &entry : fs::directory_iterator(folder)) {
        const std::string name = entry.path().filename();
        if (content_type_of(name) == nullptr || !entry.is_regular_file()) {
            continue;
        }
        std::ifstream file(entry.path(), std::ios::binary);
        std::ostringstream text;
        if (!file || !(text << file.rdbuf())) {
            throw std::runtime_error(entry.path().string() + " can't be read");
        }
        add(name, text.str());
    }
}

std::optional<Response> StaticFiles::find(const Request &request) const {
    if (request.method != Method::get || request.path.empty() || request.path.front() != '/') {
        return {};
    }
    const std::string_view name = request.path == "/" ? std::string_view("index.html")
                                                      : std::string_view(request.path).substr(1);
    const auto found = files_.find(name);
    if (found == files_.end()) {
        return {};
    }
    const File &file = found->second;
    Response response;
    response.content_type = file.content_type;
    response.headers = {{"ETag", file.tag}, {"Cache-Control", "no-cache"}};
    if (request.if_none_match == file.tag) {
        response.status = 304;
    } else {
        response.body = file.text;
    }
    return response;
}

} // namespace web
