// What the parts of the measurement share: inputs, readers, times and the report.
#pragma once

#include <cstddef>
#include <cstdint>
#include <fstream>
#include <functional>
#include <memory>
#include <string>
#include <vector>

constexpr char RS = '\x1e';

// The place and the length of a text in its stream.
struct Span {
    size_t at, length;
};

// A stream, what it is judged by, and the verdict that each of its records must get.
struct Input {
    std::string name;
    std::string book;
    std::string schema; // the book's rules as a JSON Schema; empty: there is none
    bool valid = true;
    std::string stream;      // each text behind RS
    std::vector<Span> texts; // the texts of the stream
    std::string apart;       // the stream with NUL in place of RS, and room behind: what the peers read
};

// Fills `texts`, and `apart`, from `stream`.
void find_texts(Input &input);
void set_apart(Input &input);

// The whole bytes of a file. Ends the program where it cannot be read.
std::string file_bytes(const std::string &name);

// The book of the field streams, and the same as a schema.
extern const char *const FIELD_BOOK;
extern const char *const FIELD_SCHEMA;

// Streams of fields from a seed: of all sizes, or of about 44 bytes with three corners.
Input field_input(uint64_t seed, size_t bytes);
Input small_input(uint64_t seed, size_t records);
std::string small_records(uint64_t seed, size_t records);

// One who reads: ours, or a peer.
class Reader {
public:
    virtual ~Reader() = default;
    virtual std::string name() const = 0;
    virtual std::string version() const = 0;
    virtual bool takes_pieces() const { return true; }
    // It holds texts to a schema, and reads only inputs that have one.
    virtual bool needs_schema() const { return false; }
    // Before and after each timed call; what is wrong with its answers, or nothing.
    virtual void ready(const Input &) {}
    virtual std::string fault(const Input &) { return ""; }
    // Reads all texts, in pieces of so many bytes (0: in one piece). False where a text was not accepted.
    virtual bool run(const Input &input, size_t piece) = 0;
};

// All that take part; ours is the first. A peer's file enters itself.
std::vector<std::unique_ptr<Reader>> &readers();

template <class T> struct Enter {
    Enter() { readers().push_back(std::make_unique<T>()); }
};

// Loads a book by ours: the number and the line of its refusal, 0 where it is accepted.
struct Refusal {
    int number;
    size_t line;
};
Refusal refusal_of(const std::string &book);

// Fills a table with the book, and gives the number of its refusal.
uint8_t load(const std::string &book, std::vector<uint8_t> &table);

// Judges a stream by a table, and gives the number of entries.
size_t judge_by_table(const std::vector<uint8_t> &table, const std::string &stream, size_t piece, std::vector<uint8_t> &work,
                      std::vector<uint8_t> &out);

// A call of ours: the entries that a book and a stream give with a work buffer of so many bytes.
struct Entry {
    int word, number;
    size_t place, read;
};
std::vector<Entry> judged(const std::string &book, const std::string &stream, size_t piece, size_t work_bytes);

// The moments, in seconds, at which so many records of a stream had got their entries from ours. The last mark is the number of all
// records.
std::vector<double> moments(const std::string &book, const std::string &stream, const std::vector<size_t> &marks);

// The least and the middle one of some times, in seconds.
struct Times {
    double best, median;
};

// The seconds of one run, whose answers are checked. Ends the program where they are wrong.
double seconds_of_run(Reader &reader, const Input &input, size_t piece);

// Takes several calls in rounds, one after another in each round, so that a drift of the machine meets all of them. A call gives its
// seconds. One round more than asked for is made at the beginning, and does not count.
std::vector<Times> in_rounds(int rounds, const std::vector<std::function<double()>> &calls);

// Writes tables in Markdown to the screen and to a file, and results as lines with tabs to another.
class Report {
public:
    Report(const std::string &markdown, const std::string &results);
    void line(const std::string &text);
    void table(const std::vector<std::string> &head, const std::vector<std::vector<std::string>> &rows);
    void result(const std::vector<std::string> &fields);

private:
    std::ofstream markdown_, results_;
};

// A number with so many digits after the point; a whole number with commas.
std::string digits(double number, int behind);
std::string grouped(size_t number);

// Ends the program with a message.
[[noreturn]] void fail(const std::string &message);

struct Options {
    bool quick = false;
    int rounds = 7;
    size_t bytes = 20'000'000;
    uint64_t seed = 1;
};

// The sections of a report.
void measure_speed(Report &report, Input &input, int rounds);
void measure_scaling(Report &report, const Options &options);
void measure_sizes(Report &report, size_t text_bytes);
