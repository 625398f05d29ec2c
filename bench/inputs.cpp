// Streams that are read: fields made from a seed, and texts of files.
#include "bench.hpp"

#include <algorithm>
#include <iterator>
#include <random>

// The example book of the requirement.
const char *const FIELD_BOOK = "rule form state key value next\n"
                               "0 obj 0 corners r1 1\n"
                               "0 obj 1 name str 2\n"
                               "0 obj 2 - end -\n"
                               "1 arr 0 - r2 0\n"
                               "1 arr 0 - end -\n"
                               "2 arr 0 - int 1\n"
                               "2 arr 1 - int 2\n"
                               "2 arr 2 - end -\n";

const char *const FIELD_SCHEMA = R"({
  "type": "object", "required": ["corners", "name"], "additionalProperties": false,
  "properties": {
    "name": {"type": "string"},
    "corners": {"type": "array", "items": {"type": "array", "items": {"type": "integer"}, "minItems": 2, "maxItems": 2}}
  }
})";

namespace {

// Room after the last text: simdjson reads up to 64 bytes past the end.
constexpr size_t ROOM = 64;

// Numbers from a seed, the same on every machine.
class Numbers {
public:
    explicit Numbers(uint64_t seed) : engine_(seed) {}
    uint64_t below(uint64_t limit) { return engine_() % limit; }

private:
    std::mt19937_64 engine_;
};

// A name of one to four words, some with escapes or letters outside ASCII.
std::string field_name(Numbers &numbers) {
    static const char *const words[] = {
        "Long",  "Acre",           "Mill",       "Piece",      "Oxbow",        "North",      "Hill",       "by the brook",
        "17",    "Wood",           "C\u00f4te",  "Gr\u00fcn",  "\u8349\u5730", "\U0001F33E", "Caf\\u00e9", "\\\"the flat\\\"",
        "a\\/b", "\\ud83c\\udf3e", "old\\tname", "Stra\u00dfe"};
    std::string name = words[numbers.below(10)];
    for (uint64_t more = numbers.below(4); more > 0; more--) {
        name += std::string(" ") + words[numbers.below(std::size(words))];
    }
    return name;
}

// Three corners at least; most fields have few, some have hundreds.
std::string field_corners(Numbers &numbers, bool blanks) {
    const uint64_t most = numbers.below(8) == 0 ? 300 : 30;
    const std::string comma = blanks ? ", " : ",";
    std::string list = "[";
    for (uint64_t left = 3 + numbers.below(most); left > 0; left--) {
        const long x = static_cast<long>(numbers.below(2'000'001)) - 1'000'000;
        const long y = static_cast<long>(numbers.below(2'000'001)) - 1'000'000;
        list += "[" + std::to_string(x) + comma + std::to_string(y) + "]" + (left > 1 ? comma : "");
    }
    return list + "]";
}

// A field with its two pairs in either order, close together or with blanks.
std::string field_record(Numbers &numbers) {
    const bool blanks = numbers.below(2) == 0;
    const std::string colon = blanks ? ": " : ":";
    const std::string name = "\"name\"" + colon + "\"" + field_name(numbers) + "\"";
    const std::string corners = "\"corners\"" + colon + field_corners(numbers, blanks);
    const std::string comma = blanks ? ", " : ",";
    return "{" + (numbers.below(2) == 0 ? name + comma + corners : corners + comma + name) + "}";
}

std::string small_record(Numbers &numbers) {
    std::string text = "{\"name\":\"N" + std::to_string(numbers.below(10)) + "\",\"corners\":[";
    for (int corner = 0; corner < 3; corner++) {
        text += (corner > 0 ? ",[" : "[") + std::to_string(numbers.below(100)) + "," + std::to_string(numbers.below(10)) + "]";
    }
    return text + "]}";
}

} // namespace

Input field_input(uint64_t seed, size_t bytes) {
    Input input;
    input.name = "fields";
    input.book = FIELD_BOOK;
    input.schema = FIELD_SCHEMA;
    Numbers numbers(seed);
    while (input.stream.size() < bytes) {
        input.stream += RS + field_record(numbers) + "\n";
    }
    find_texts(input);
    return input;
}

std::string small_records(uint64_t seed, size_t records) {
    Numbers numbers(seed);
    std::string stream;
    for (size_t record = 0; record < records; record++) {
        stream += RS + small_record(numbers) + "\n";
    }
    return stream;
}

Input small_input(uint64_t seed, size_t records) {
    Input input;
    input.name = "small fields";
    input.book = FIELD_BOOK;
    input.schema = FIELD_SCHEMA;
    input.stream = small_records(seed, records);
    find_texts(input);
    return input;
}

void find_texts(Input &input) {
    input.texts.clear();
    for (size_t at = 0; at < input.stream.size();) {
        const size_t end = std::min(input.stream.find(RS, at), input.stream.size());
        if (end > at) {
            input.texts.push_back({at, end - at});
        }
        at = end + 1;
    }
}

void set_apart(Input &input) {
    input.apart = input.stream;
    std::replace(input.apart.begin(), input.apart.end(), RS, '\0');
    input.apart.append(ROOM, '\0');
}

std::string file_bytes(const std::string &name) {
    std::ifstream file(name, std::ios::binary);
    if (!file) {
        fail("cannot read " + name);
    }
    return {std::istreambuf_iterator<char>(file), std::istreambuf_iterator<char>()};
}
