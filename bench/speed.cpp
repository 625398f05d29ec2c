// The same bytes through ours and through each peer.
#include "bench.hpp"

#include <algorithm>

namespace {

constexpr size_t PIECES[] = {64, 4096, 0};

std::string piece_name(size_t piece) {
    return piece == 0 ? "whole" : piece < 1024 ? std::to_string(piece) + " B" : std::to_string(piece / 1024) + " KiB";
}

// A reader at a piece size.
struct Cell {
    Reader *reader;
    size_t piece;
};

bool takes_part(const Reader &reader, const Input &input) { return !reader.needs_schema() || (input.valid && !input.schema.empty()); }

// The places of opening braces in a text, strings aside.
std::vector<size_t> braces(const std::string &text) {
    std::vector<size_t> places;
    bool quoted = false;
    for (size_t at = 0; at < text.size(); at++) {
        if (quoted && text[at] == '\\') {
            at++;
        } else if (text[at] == '"') {
            quoted = !quoted;
        } else if (!quoted && text[at] == '{') {
            places.push_back(at);
        }
    }
    return places;
}

// The first text with a pair too many after an opening brace.
Input with_pair(const Input &input, size_t brace) {
    Input other;
    other.name = input.name + ", a pair too many";
    other.book = input.book;
    other.schema = input.schema;
    other.valid = false;
    other.stream = RS + input.stream.substr(input.texts[0].at, input.texts[0].length);
    const size_t next = other.stream.find_first_not_of(" \t\r\n", brace + 2);
    other.stream.insert(brace + 2, other.stream[next] == '}' ? "\"x-y\":1" : "\"x-y\":1,");
    find_texts(other);
    set_apart(other);
    return other;
}

// A key that the book does not have must make a record invalid, for ours and by the schema, at the first brace, the last and some between:
// the two ask for the same, and what is measured looks at every object. The other peers must accept the text.
void try_wrong_records(const Input &input) {
    const std::vector<size_t> places = braces(input.stream.substr(input.texts[0].at, input.texts[0].length));
    for (size_t i = 0; i < places.size(); i = i + 1 == places.size() ? i + 1 : std::min(2 * i + 1, places.size() - 1)) {
        const Input wrong = with_pair(input, places[i]);
        for (const auto &reader : readers()) {
            if (reader->needs_schema() && !input.schema.empty() && reader->run(wrong, 0)) {
                fail(reader->name() + " accepts " + wrong.name);
            } else if (!reader->needs_schema()) {
                seconds_of_run(*reader, wrong, 0);
            }
        }
    }
}

std::vector<Cell> cells_of(const Input &input) {
    std::vector<Cell> cells;
    for (const auto &reader : readers()) {
        for (const size_t piece : PIECES) {
            if (takes_part(*reader, input) && (reader->takes_pieces() || piece == 0)) {
                cells.push_back({reader.get(), piece});
            }
        }
    }
    return cells;
}

void write_table(Report &report, const Input &input, const std::vector<Cell> &cells, const std::vector<Times> &times) {
    const auto best = [&](const Reader *reader, size_t piece) {
        for (size_t i = 0; i < cells.size(); i++) {
            if (cells[i].reader == reader && cells[i].piece == piece) {
                return times[i].best;
            }
        }
        return 0.0;
    };
    std::vector<std::string> head = {"reader"};
    for (const std::string unit : {"MB/s, ", "ours/peer, "}) {
        for (const size_t piece : PIECES) {
            head.push_back(unit + piece_name(piece));
        }
    }
    std::vector<std::vector<std::string>> rows;
    const Reader *ours = readers().front().get();
    for (const auto &reader : readers()) {
        if (!takes_part(*reader, input)) {
            continue;
        }
        std::vector<std::string> speeds = {reader->name()}, ratios;
        for (const size_t piece : PIECES) {
            const double seconds = best(reader.get(), piece);
            speeds.push_back(seconds > 0 ? digits(1e-6 * input.stream.size() / seconds, 1) : "-");
            ratios.push_back(seconds > 0 && reader.get() != ours ? digits(seconds / best(ours, piece), 3) : "-");
        }
        speeds.insert(speeds.end(), ratios.begin(), ratios.end());
        rows.push_back(speeds);
    }
    report.table(head, rows);
}

} // namespace

void measure_speed(Report &report, Input &input, int rounds) {
    const Refusal refusal = refusal_of(input.book);
    if (refusal.number != 0) {
        fail("the book of " + input.name + " is refused: " + std::to_string(refusal.number) + ", line " + std::to_string(refusal.line));
    }
    set_apart(input);
    report.line("### " + input.name + "\n");
    const std::string records = input.texts.size() == 1 ? " record, " : " records, ", verdict = input.valid ? "valid" : "invalid";
    report.line(grouped(input.texts.size()) + records + grouped(input.stream.size()) + " bytes; verdict: " + verdict + ".\n");
    if (input.valid) {
        try_wrong_records(input);
    }
    const std::vector<Cell> cells = cells_of(input);
    std::vector<std::function<double()>> calls;
    for (const Cell &cell : cells) {
        calls.push_back([&input, cell] { return seconds_of_run(*cell.reader, input, cell.piece); });
    }
    const std::vector<Times> times = in_rounds(rounds, calls);
    write_table(report, input, cells, times);
    for (size_t i = 0; i < cells.size(); i++) {
        report.result({"speed", input.name, verdict, cells[i].reader->name(), piece_name(cells[i].piece),
                       std::to_string(input.stream.size()), digits(times[i].best, 6), digits(times[i].median, 6)});
    }
}
