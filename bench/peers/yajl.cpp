// yajl without callbacks: it checks the grammar and UTF-8. A handle reads one text, so each text has its own.
#include "../bench.hpp"

#include <algorithm>
#include <yajl/yajl_parse.h>
#include <yajl/yajl_version.h>

namespace {

bool accepted(const unsigned char *text, size_t length, size_t piece) {
    const yajl_handle handle = yajl_alloc(nullptr, nullptr, nullptr);
    bool sound = true;
    for (size_t at = 0; sound && at < length; at += piece) {
        sound = yajl_parse(handle, text + at, std::min(piece, length - at)) == yajl_status_ok;
    }
    sound = sound && yajl_complete_parse(handle) == yajl_status_ok;
    yajl_free(handle);
    return sound;
}

class Yajl : public Reader {
public:
    std::string name() const override { return "yajl"; }
    std::string version() const override {
        return std::to_string(YAJL_MAJOR) + "." + std::to_string(YAJL_MINOR) + "." + std::to_string(YAJL_MICRO);
    }
    bool run(const Input &input, size_t piece) override {
        const auto *bytes = reinterpret_cast<const unsigned char *>(input.apart.data());
        for (const Span &text : input.texts) {
            if (!accepted(bytes + text.at, text.length, piece == 0 ? text.length : piece)) {
                return false;
            }
        }
        return true;
    }
};

const Enter<Yajl> enter;

} // namespace
