// RapidJSON's reader with a handler that does nothing, with and without its test of UTF-8, and with its schema validator as the handler.
#if defined(__SSE2__)
#define RAPIDJSON_SSE2 // blanks sixteen at a time, where a text is read whole
#endif
#include "../bench.hpp"

#include <algorithm>
#include <rapidjson/document.h>
#include <rapidjson/reader.h>
#include <rapidjson/schema.h>

namespace {

using Nothing = rapidjson::BaseReaderHandler<>;
constexpr unsigned CHECKED = rapidjson::kParseValidateEncodingFlag, UNCHECKED = rapidjson::kParseDefaultFlags;

// A text that comes in pieces: the reader takes characters, and the next piece is set where one is used up.
class PieceStream {
public:
    using Ch = char;
    PieceStream(const char *text, size_t length, size_t piece) : begin_(text), next_(text), end_(text + length), piece_(piece) { refill(); }
    Ch Peek() const { return next_ == piece_end_ ? '\0' : *next_; }
    Ch Take() {
        const Ch taken = Peek();
        if (next_ != piece_end_ && ++next_ == piece_end_) {
            refill();
        }
        return taken;
    }
    size_t Tell() const { return static_cast<size_t>(next_ - begin_); }
    Ch *PutBegin() { return nullptr; }
    void Put(Ch) {}
    void Flush() {}
    size_t PutEnd(Ch *) { return 0; }

private:
    void refill() { piece_end_ = next_ + std::min(piece_, static_cast<size_t>(end_ - next_)); }
    const char *begin_, *next_, *end_;
    size_t piece_;
    const char *piece_end_ = nullptr;
};

template <unsigned flags, class Handler>
bool accepted(rapidjson::Reader &reader, const char *text, size_t length, size_t piece, Handler &handler) {
    if (piece == 0) {
        rapidjson::StringStream stream(text);
        return !reader.Parse<flags>(stream, handler).IsError();
    }
    PieceStream stream(text, length, piece);
    return !reader.Parse<flags>(stream, handler).IsError();
}

template <unsigned flags> class Sax : public Reader {
public:
    std::string name() const override { return flags == CHECKED ? "RapidJSON" : "RapidJSON, UTF-8 unchecked"; }
    std::string version() const override { return RAPIDJSON_VERSION_STRING; }
    bool run(const Input &input, size_t piece) override {
        rapidjson::Reader reader;
        Nothing nothing;
        for (const Span &text : input.texts) {
            if (!accepted<flags>(reader, input.apart.data() + text.at, text.length, piece, nothing)) {
                return false;
            }
        }
        return true;
    }
};

// Builds the schema in each run, as ours loads its book.
class Schema : public Reader {
public:
    std::string name() const override { return "RapidJSON schema"; }
    std::string version() const override { return RAPIDJSON_VERSION_STRING; }
    bool needs_schema() const override { return true; }
    bool run(const Input &input, size_t piece) override {
        rapidjson::Document tree;
        if (tree.Parse(input.schema.c_str()).HasParseError()) {
            fail("the schema of " + input.name + " is no JSON text");
        }
        const rapidjson::SchemaDocument schema(tree);
        rapidjson::SchemaValidator validator(schema);
        rapidjson::Reader reader;
        for (const Span &text : input.texts) {
            validator.Reset();
            const bool sound = accepted<CHECKED>(reader, input.apart.data() + text.at, text.length, piece, validator);
            if (!sound || !validator.IsValid()) {
                return false;
            }
        }
        return true;
    }
};

const Enter<Sax<CHECKED>> enter_checked;
const Enter<Sax<UNCHECKED>> enter_unchecked;
const Enter<Schema> enter_schema;

} // namespace
