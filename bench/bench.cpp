// Measures the field text reader beside other readers of JSON: bench/README.md.
#include "bench.hpp"

#include <cstdlib>
#include <iostream>

namespace {

// An input of a file: its name, its book, its schema or -, the file, and the verdict that its records get.
struct FileInput {
    std::string name, book, schema, file;
    bool valid;
};

struct Arguments {
    Options options;
    std::string markdown, results;
    size_t text_bytes = 0;
    bool speed = true, scaling = true;
    std::vector<FileInput> files;
};

// The arguments one after another.
class Words {
public:
    Words(int count, char **words) : words_(words + 1, words + count) {}
    bool more() const { return at_ < words_.size(); }
    std::string next() {
        if (!more()) {
            fail("an argument is missing at the end");
        }
        return words_[at_++];
    }
    size_t number() { return std::strtoull(next().c_str(), nullptr, 10); }

private:
    std::vector<std::string> words_;
    size_t at_ = 0;
};

FileInput file_input(Words &words, bool valid) {
    FileInput input;
    input.name = words.next();
    input.book = words.next();
    input.schema = words.next();
    input.file = words.next();
    input.valid = valid;
    return input;
}

Arguments read_arguments(int count, char **list) {
    Arguments all;
    for (Words words(count, list); words.more();) {
        const std::string word = words.next();
        if (word == "--quick") {
            all.options = {true, 3, 2'000'000, all.options.seed};
        } else if (word == "--rounds") {
            all.options.rounds = static_cast<int>(words.number());
        } else if (word == "--megabytes") {
            all.options.bytes = 1'000'000 * words.number();
        } else if (word == "--seed") {
            all.options.seed = words.number();
        } else if (word == "--markdown") {
            all.markdown = words.next();
        } else if (word == "--results") {
            all.results = words.next();
        } else if (word == "--text-bytes") {
            all.text_bytes = words.number();
        } else if (word == "--only") {
            const std::string section = words.next();
            all.speed = section == "speed";
            all.scaling = section == "scaling";
        } else if (word == "--valid" || word == "--invalid") {
            all.files.push_back(file_input(words, word == "--valid"));
        } else {
            fail("unknown argument " + word);
        }
    }
    if (all.options.rounds < 1 || all.options.bytes < 100'000) {
        fail("--rounds and --megabytes want a number from 1 on");
    }
    return all;
}

// The records of a file, over and over up to so many bytes. A file without RS is one record.
Input input_of(const FileInput &from, size_t bytes) {
    Input input;
    input.name = from.name;
    input.book = file_bytes(from.book);
    input.schema = from.schema == "-" ? "" : file_bytes(from.schema);
    input.valid = from.valid;
    std::string once = file_bytes(from.file);
    if (once.empty() || once[0] != RS) {
        once.insert(0, 1, RS);
    }
    while (input.stream.size() < bytes) {
        input.stream += once;
    }
    find_texts(input);
    return input;
}

std::string processor() {
    std::ifstream file("/proc/cpuinfo");
    for (std::string line; std::getline(file, line);) {
        if (line.rfind("model name", 0) == 0) {
            return line.substr(line.find(':') + 2);
        }
    }
    return "unknown processor";
}

void write_head(Report &report, const Options &options) {
    report.line("Processor: " + processor() + ". Compiler of the peers' headers: " + __VERSION__ + ". Best of " +
                std::to_string(options.rounds) + " rounds; MB are 1,000,000 bytes.\n");
    report.result({"machine", processor(), __VERSION__, std::to_string(options.rounds)});
    for (const auto &reader : readers()) {
        report.result({"reader", reader->name(), reader->version()});
        report.line("- " + reader->name() + ": " + reader->version());
    }
    report.line("");
}

void measure_inputs(Report &report, const Arguments &all) {
    const Options &options = all.options;
    report.line("## Speed\n");
    Input fields = field_input(options.seed, options.bytes);
    measure_speed(report, fields, options.rounds);
    Input small = small_input(options.seed, options.bytes / 100);
    measure_speed(report, small, options.rounds);
    for (const FileInput &from : all.files) {
        Input input = input_of(from, options.bytes / 2);
        measure_speed(report, input, options.rounds);
    }
}

} // namespace

int main(int count, char **list) {
    const Arguments all = read_arguments(count, list);
    Report report(all.markdown, all.results);
    write_head(report, all.options);
    if (all.speed) {
        measure_inputs(report, all);
    }
    if (all.scaling) {
        measure_scaling(report, all.options);
        measure_sizes(report, all.text_bytes);
    }
}
