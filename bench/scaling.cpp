// How the cost of ours grows: with pieces, edges, levels and records.
#include "bench.hpp"

#include <algorithm>

namespace {

const std::string NAMES = "rule form state key value next\n";
constexpr size_t FRAME = 96;

// A stream for ours alone, and the piece size.
struct Trial {
    Input input;
    size_t piece = 0;
};

Trial trial(const std::string &name, const std::string &book, const std::string &stream, size_t piece) {
    Trial made;
    made.input.name = name;
    made.input.book = book;
    made.input.stream = stream;
    made.piece = piece;
    find_texts(made.input);
    return made;
}

std::vector<Times> times_of(int rounds, const std::vector<Trial> &trials) {
    std::vector<std::function<double()>> calls;
    for (const Trial &trial : trials) {
        calls.push_back([&trial] { return seconds_of_run(*readers().front(), trial.input, trial.piece); });
    }
    return in_rounds(rounds, calls);
}

std::string per_byte(const Trial &trial, const Times &times) { return digits(1e9 * times.best / trial.input.stream.size(), 2); }

std::string speed(const Trial &trial, const Times &times) { return digits(1e-6 * trial.input.stream.size() / times.best, 1); }

void scale_pieces(Report &report, const Options &options) {
    const std::string stream = field_input(options.seed, options.bytes / 10).stream;
    std::vector<Trial> trials;
    for (const size_t piece : {1, 4, 16, 64, 256, 1024, 4096, 65536, 0}) {
        trials.push_back(trial("pieces", FIELD_BOOK, stream, piece));
    }
    const std::vector<Times> times = times_of(options.rounds, trials);
    std::vector<std::vector<std::string>> rows;
    for (size_t i = 0; i < trials.size(); i++) {
        const std::string piece = trials[i].piece == 0 ? "whole" : grouped(trials[i].piece);
        rows.push_back({piece, speed(trials[i], times[i]), per_byte(trials[i], times[i])});
        report.result({"pieces", piece, digits(times[i].best, 6), std::to_string(stream.size())});
    }
    report.line("### Pieces\n\nThe stream of fields, fed in pieces.\n");
    report.table({"bytes of a piece", "MB/s", "ns per byte"}, rows);
}

// The field book with edges of further rules, up to so many edges.
std::string book_of_edges(size_t edges, bool arrays) {
    constexpr size_t OWN = 5;
    std::string book = FIELD_BOOK;
    for (size_t i = 0; i + OWN < edges; i++) {
        const size_t rule = 3 + i / 30, state = i % 30 / 2;
        const std::string begin = std::to_string(rule) + (arrays ? " arr " : " obj ") + std::to_string(state);
        const std::string key = arrays ? "-" : "k" + std::to_string(state);
        const std::string kind = arrays ? (i % 2 == 0 ? "int" : "r2") : (i % 2 == 0 ? "int" : "str");
        const size_t next = arrays ? (state + 1) % 15 : state + 1;
        book += begin + " " + key + " " + kind + " " + std::to_string(next) + "\n";
    }
    return book;
}

void scale_edges(Report &report, const Options &options) {
    const std::string stream = field_input(options.seed, options.bytes / 10).stream;
    const size_t counts[] = {8, 64, 512};
    std::vector<Trial> trials;
    for (const size_t count : counts) {
        trials.push_back(trial("edges of obj rules", book_of_edges(count, false), stream, 0));
        trials.push_back(trial("edges of arr rules", book_of_edges(count, true), stream, 0));
        trials.push_back(trial("no record", book_of_edges(count, false), std::string(1, RS), 0));
    }
    const std::vector<Times> times = times_of(options.rounds, trials);
    std::vector<std::vector<std::string>> rows;
    for (size_t i = 0; i < trials.size(); i += 3) {
        const std::string count = std::to_string(counts[i / 3]), call = digits(1e6 * times[i + 2].best, 1);
        rows.push_back({count, speed(trials[i], times[i]), per_byte(trials[i], times[i]), speed(trials[i + 1], times[i + 1]),
                        per_byte(trials[i + 1], times[i + 1]), call});
        report.result({"edges", count, per_byte(trials[i], times[i]), per_byte(trials[i + 1], times[i + 1]), call});
    }
    report.line(
        "### Edges\n\nThe stream of fields under its book, which has five edges, with edges of further rules added: of rules for objects,\n"
        "whose keys never come, or of rules for arrays, which every array follows. The last column is a call without a record:\n"
        "it loads the book, starts and closes.\n");
    report.table({"edges", "MB/s, obj", "ns per byte, obj", "MB/s, arr", "ns per byte, arr", "load, microseconds"}, rows);
}

// A rule of arrays in arrays, and whole numbers.
const std::string NEST = NAMES + "0 arr 0 - r0 0\n0 arr 0 - int 0\n0 arr 0 - end -\n";

// Records of some 10,000 bytes of numbers at a level, and records of brackets only, down to a level.
std::string numbers_at(size_t level, size_t bytes) {
    std::string numbers = "0";
    while (numbers.size() < 10'000) {
        numbers += ",15,-230";
    }
    const std::string record = RS + std::string(level, '[') + numbers + std::string(level, ']') + "\n";
    std::string stream;
    while (stream.size() < bytes) {
        stream += record;
    }
    return stream;
}

std::string brackets(size_t level, size_t bytes) {
    std::string stream;
    while (stream.size() < bytes) {
        stream += RS + std::string(level, '[') + std::string(level, ']') + "\n";
    }
    return stream;
}

// So many levels need 96 bytes each: one byte less, and the record is refused with 12 at its last opening byte.
void check_frames(size_t level) {
    const std::string record = RS + std::string(level, '[') + std::string(level, ']');
    const std::vector<Entry> room = judged(NEST, record, 0, FRAME * level), less = judged(NEST, record, 0, FRAME * level - 1);
    const bool refused = level == 1 ? less[0].number == 21 : less[0].number == 12 && less[0].place == level - 1;
    if (room.size() != 1 || room[0].word != 0 || less.size() != 1 || !refused) {
        fail("a record of " + std::to_string(level) + " levels is not judged as its work buffer asks");
    }
}

void scale_levels(Report &report, const Options &options) {
    const size_t levels[] = {1, 2, 4, 8, 16, 32, 64};
    std::vector<Trial> trials;
    for (const size_t level : levels) {
        check_frames(level);
        trials.push_back(trial("numbers at a level", NEST, numbers_at(level, options.bytes / 10), 0));
        trials.push_back(trial("brackets", NEST, brackets(level, options.bytes / 40), 0));
    }
    const std::vector<Times> times = times_of(options.rounds, trials);
    std::vector<std::vector<std::string>> rows;
    for (size_t i = 0; i < trials.size(); i += 2) {
        const size_t level = levels[i / 2];
        const double record = 1e9 * times[i + 1].best / trials[i + 1].input.texts.size();
        rows.push_back(
            {std::to_string(level), per_byte(trials[i], times[i]), digits(record, 0), digits(record / level, 0), grouped(FRAME * level)});
        report.result({"levels", std::to_string(level), per_byte(trials[i], times[i]), digits(record, 1)});
    }
    report.line(
        "### Levels\n\nNumbers in an array at a level, and records of nothing but brackets down to a level. With one byte of the work\n"
        "buffer less, the record is refused (checked).\n");
    report.table({"level", "numbers: ns per byte", "brackets: ns per record", "ns per level", "work bytes"}, rows);
}

// Small fields in one stream: those at the beginning, in the middle and after a million cost the same.
void scale_records(Report &report, const Options &options) {
    const size_t unit = options.quick ? 10'000 : 100'000;
    const std::string stream = small_records(options.seed, 11 * unit);
    const std::vector<size_t> marks = {0, unit, 5 * unit, 6 * unit, 10 * unit, 11 * unit};
    std::vector<double> best(marks.size() - 1, 1e9);
    for (int round = 0; round <= options.rounds; round++) {
        const std::vector<double> seconds = moments(FIELD_BOOK, stream, marks);
        for (size_t i = 0; i < best.size(); i++) {
            best[i] = std::min(best[i], seconds[i + 1] - seconds[i]);
        }
    }
    std::vector<std::vector<std::string>> rows;
    for (const size_t i : {0, 2, 4}) {
        const std::string name = grouped(marks[i]) + " to " + grouped(marks[i + 1]);
        const std::string cost = digits(1e9 * best[i] / static_cast<double>(marks[i + 1] - marks[i]), 1);
        rows.push_back({name, cost});
        report.result({"records", name, cost});
    }
    report.line("### Records\n\nSmall fields, all in one stream, " + grouped(stream.size()) +
                " bytes. A timer notes which of them have their entry.\n");
    report.table({"records", "ns per record"}, rows);
}

} // namespace

void measure_scaling(Report &report, const Options &options) {
    report.line("## Scaling of ours\n");
    scale_pieces(report, options);
    scale_edges(report, options);
    scale_levels(report, options);
    scale_records(report, options);
}
