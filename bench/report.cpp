// Times, and the tables and lines that are written.
#include "bench.hpp"

#include <algorithm>
#include <chrono>
#include <cstdio>
#include <cstdlib>
#include <iostream>

void fail(const std::string &message) {
    std::cout.flush();
    std::cerr << "bench: " << message << "\n";
    std::exit(1);
}

std::vector<std::unique_ptr<Reader>> &readers() {
    static std::vector<std::unique_ptr<Reader>> all;
    return all;
}

double seconds_of_run(Reader &reader, const Input &input, size_t piece) {
    using Clock = std::chrono::steady_clock;
    reader.ready(input);
    const auto begin = Clock::now();
    const bool accepted = reader.run(input, piece);
    const auto end = Clock::now();
    const std::string fault = accepted ? reader.fault(input) : "a text was not accepted";
    if (!fault.empty()) {
        fail(reader.name() + " on " + input.name + ", piece " + std::to_string(piece) + ": " + fault);
    }
    return std::chrono::duration<double>(end - begin).count();
}

static Times times_of(std::vector<double> seconds) {
    std::sort(seconds.begin(), seconds.end());
    return {seconds.front(), seconds[seconds.size() / 2]};
}

std::vector<Times> in_rounds(int rounds, const std::vector<std::function<double()>> &calls) {
    std::vector<std::vector<double>> seconds(calls.size());
    for (int round = 0; round <= rounds; round++) {
        for (size_t call = 0; call < calls.size(); call++) {
            const double taken = calls[call]();
            if (round > 0) {
                seconds[call].push_back(taken);
            }
        }
    }
    std::vector<Times> all;
    for (const auto &list : seconds) {
        all.push_back(times_of(list));
    }
    return all;
}

std::string digits(double number, int behind) {
    char text[64];
    std::snprintf(text, sizeof text, "%.*f", behind, number);
    return text;
}

std::string grouped(size_t number) {
    std::string text = std::to_string(number);
    for (size_t at = text.size(); at > 3; at -= 3) {
        text.insert(at - 3, ",");
    }
    return text;
}

Report::Report(const std::string &markdown, const std::string &results) {
    for (const auto &[name, file] : {std::pair{&markdown, &markdown_}, std::pair{&results, &results_}}) {
        if (name->empty()) {
            continue;
        }
        file->open(*name);
        if (!*file) {
            fail("cannot write " + *name);
        }
    }
}

void Report::line(const std::string &text) {
    std::cout << text << std::endl;
    if (markdown_.is_open()) {
        markdown_ << text << "\n";
    }
}

// Words stand at the left, numbers at the right: the first column holds words.
void Report::table(const std::vector<std::string> &head, const std::vector<std::vector<std::string>> &rows) {
    std::vector<size_t> widths;
    for (size_t column = 0; column < head.size(); column++) {
        size_t width = std::max<size_t>(3, head[column].size());
        for (const auto &row : rows) {
            width = std::max(width, row[column].size());
        }
        widths.push_back(width);
    }
    const auto write = [&](const std::vector<std::string> &row) {
        std::string text = "|";
        for (size_t column = 0; column < row.size(); column++) {
            const std::string pad(widths[column] - row[column].size(), ' ');
            text += " " + (column == 0 ? row[column] + pad : pad + row[column]) + " |";
        }
        line(text);
    };
    write(head);
    std::string rule = "|" + std::string(widths[0] + 2, '-') + "|";
    for (size_t column = 1; column < widths.size(); column++) {
        rule += std::string(widths[column] + 1, '-') + ":|";
    }
    line(rule);
    for (const auto &row : rows) {
        write(row);
    }
    line("");
}

void Report::result(const std::vector<std::string> &fields) {
    if (!results_.is_open()) {
        return;
    }
    for (size_t field = 0; field < fields.size(); field++) {
        results_ << (field > 0 ? "\t" : "") << fields[field];
    }
    results_ << std::endl;
}
