// The reader of this repository, by its interface for C.
#include "../include/fieldtext.h"
#include "bench.hpp"

#include <algorithm>

namespace {

constexpr size_t FRAME = 96, LEVELS = 64;
constexpr uint8_t UNWRITTEN = 255;

const uint8_t *bytes_of(const std::string &text) { return reinterpret_cast<const uint8_t *>(text.data()); }

size_t judge(const std::string &book, const std::string &stream, size_t piece, std::vector<uint8_t> &work, std::vector<uint8_t> &out) {
    return fieldtext_judge(bytes_of(book), book.size(), bytes_of(stream), stream.size(), piece, work.data(), work.size(), out.data(),
                           out.size());
}

// A number of so many bytes, the lowest first.
size_t little(const uint8_t *at, int count) {
    size_t number = 0;
    for (int i = count; i > 0; i--) {
        number = 256 * number + at[i - 1];
    }
    return number;
}

// Loads the book, starts, feeds the stream and closes, with 64 frames.
class Ours : public Reader {
public:
    std::string name() const override { return "field text reader"; }
    std::string version() const override { return "this repository"; }

    void ready(const Input &input) override { out_.assign(FIELDTEXT_ENTRY * (1 + input.texts.size()), UNWRITTEN); }

    bool run(const Input &input, size_t piece) override {
        made_ = judge(input.book, input.stream, piece, work_, out_);
        return true;
    }

    // Each record has got the verdict that the input names.
    std::string fault(const Input &input) override {
        if (made_ != input.texts.size()) {
            return std::to_string(made_) + " entries for " + std::to_string(input.texts.size()) + " records";
        }
        for (size_t i = 0; i < made_; i++) {
            const uint8_t *entry = &out_[FIELDTEXT_ENTRY * i];
            if (entry[0] != (input.valid ? 0 : 1)) {
                return "entry " + std::to_string(i) + " has word " + std::to_string(entry[0]) + ", number " + std::to_string(entry[1]) +
                       ", place " + std::to_string(little(entry + 4, 4));
            }
        }
        return "";
    }

private:
    std::vector<uint8_t> work_ = std::vector<uint8_t>(FRAME * LEVELS);
    std::vector<uint8_t> out_;
    size_t made_ = 0;
};

struct First {
    First() { readers().insert(readers().begin(), std::make_unique<Ours>()); }
} const first;

} // namespace

Refusal refusal_of(const std::string &book) {
    const int number = fieldtext_book_number(bytes_of(book), book.size());
    return {number, number == 0 ? 0 : fieldtext_book_line(bytes_of(book), book.size())};
}

uint8_t load(const std::string &book, std::vector<uint8_t> &table) {
    table.resize(FIELDTEXT_TABLE);
    return fieldtext_load(bytes_of(book), book.size(), table.data());
}

size_t judge_by_table(const std::vector<uint8_t> &table, const std::string &stream, size_t piece, std::vector<uint8_t> &work,
                      std::vector<uint8_t> &out) {
    return fieldtext_judge_table(table.data(), bytes_of(stream), stream.size(), piece, work.data(), work.size(), out.data(), out.size());
}

std::vector<Entry> judged(const std::string &book, const std::string &stream, size_t piece, size_t work_bytes) {
    std::vector<uint8_t> work(work_bytes);
    const size_t most = 1 + static_cast<size_t>(std::count(stream.begin(), stream.end(), RS));
    std::vector<uint8_t> out(FIELDTEXT_ENTRY * most, UNWRITTEN);
    const size_t made = judge(book, stream, piece, work, out);
    std::vector<Entry> entries;
    for (size_t i = 0; i < std::min(made, most); i++) {
        const uint8_t *at = &out[FIELDTEXT_ENTRY * i];
        entries.push_back({at[0], at[1], little(at + 4, 4), little(at + 8, 8)});
    }
    return entries;
}
