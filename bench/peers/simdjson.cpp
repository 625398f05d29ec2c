// simdjson's parser that makes a whole tree: the only one of its parsers that checks all of a text. It needs the whole text at once.
#include "../bench.hpp"

#include <simdjson.h>

namespace {

class Simdjson : public Reader {
public:
    std::string name() const override { return "simdjson, tree"; }
    std::string version() const override {
        return std::to_string(simdjson::SIMDJSON_VERSION_MAJOR) + "." + std::to_string(simdjson::SIMDJSON_VERSION_MINOR) + "." +
               std::to_string(simdjson::SIMDJSON_VERSION_REVISION) + ", " + simdjson::get_active_implementation()->name();
    }
    bool takes_pieces() const override { return false; }
    bool run(const Input &input, size_t) override {
        for (const Span &text : input.texts) {
            if (parser_.parse(input.apart.data() + text.at, text.length, false).error() != simdjson::SUCCESS) {
                return false;
            }
        }
        return true;
    }

private:
    simdjson::dom::parser parser_; // keeps its memory from text to text
};

const Enter<Simdjson> enter;

} // namespace
