// Boost.JSON's parser of events with a handler that does nothing: it checks the grammar and UTF-8, and converts numbers.
#include "../bench.hpp"

#include <algorithm>
#include <boost/json/basic_parser_impl.hpp>
#include <boost/version.hpp>

namespace {

namespace json = boost::json;
using json::error_code;
using json::string_view;

struct Nothing {
    static constexpr size_t max_object_size = static_cast<size_t>(-1), max_array_size = max_object_size;
    static constexpr size_t max_key_size = max_object_size, max_string_size = max_object_size;
    bool on_document_begin(error_code &) { return true; }
    bool on_document_end(error_code &) { return true; }
    bool on_object_begin(error_code &) { return true; }
    bool on_object_end(size_t, error_code &) { return true; }
    bool on_array_begin(error_code &) { return true; }
    bool on_array_end(size_t, error_code &) { return true; }
    bool on_key_part(string_view, size_t, error_code &) { return true; }
    bool on_key(string_view, size_t, error_code &) { return true; }
    bool on_string_part(string_view, size_t, error_code &) { return true; }
    bool on_string(string_view, size_t, error_code &) { return true; }
    bool on_number_part(string_view, error_code &) { return true; }
    bool on_int64(int64_t, string_view, error_code &) { return true; }
    bool on_uint64(uint64_t, string_view, error_code &) { return true; }
    bool on_double(double, string_view, error_code &) { return true; }
    bool on_bool(bool, error_code &) { return true; }
    bool on_null(error_code &) { return true; }
    bool on_comment_part(string_view, error_code &) { return true; }
    bool on_comment(string_view, error_code &) { return true; }
};

using Parser = json::basic_parser<Nothing>;

bool accepted(Parser &parser, const char *text, size_t length, size_t piece) {
    error_code error;
    parser.reset();
    for (size_t at = 0; at < length; at += piece) {
        const size_t count = std::min(piece, length - at);
        const bool more = at + count < length;
        if (parser.write_some(more, text + at, count, error) != count || error) {
            return false;
        }
    }
    return parser.done();
}

class Boost : public Reader {
public:
    std::string name() const override { return "Boost.JSON"; }
    std::string version() const override {
        return std::to_string(BOOST_VERSION / 100000) + "." + std::to_string(BOOST_VERSION / 100 % 1000);
    }
    bool run(const Input &input, size_t piece) override {
        json::parse_options options;
        options.max_depth = 64;
        Parser parser(options);
        for (const Span &text : input.texts) {
            if (!accepted(parser, input.apart.data() + text.at, text.length, piece == 0 ? text.length : piece)) {
                return false;
            }
        }
        return true;
    }
};

const Enter<Boost> enter;

} // namespace
