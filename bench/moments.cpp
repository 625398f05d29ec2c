// The moments at which records of a stream get their entries: a timer looks at the output while ours judges the stream.
#include "../include/fieldtext.h"
#include "bench.hpp"

#include <csignal>
#include <ctime>
#include <sys/time.h>

namespace {

constexpr suseconds_t TICK = 500; // microseconds
constexpr size_t WORK = 6144;
constexpr uint8_t UNWRITTEN = 255;

// So many records had their entry at a time.
struct Sample {
    double seconds;
    size_t records;
};

// What the timer's handler reads and writes.
const volatile uint8_t *watched_out;
size_t watched_records;
std::vector<Sample> samples;

double now() {
    timespec time;
    clock_gettime(CLOCK_MONOTONIC, &time);
    return static_cast<double>(time.tv_sec) + 1e-9 * static_cast<double>(time.tv_nsec);
}

// Goes on from the last sample; there is no more room made than was made before.
void take_sample(int) {
    if (samples.size() == samples.capacity()) {
        return;
    }
    size_t records = samples.empty() ? 0 : samples.back().records;
    while (records < watched_records && watched_out[FIELDTEXT_ENTRY * records] != UNWRITTEN) {
        records++;
    }
    samples.push_back({now(), records});
}

void set_timer(suseconds_t microseconds) {
    const itimerval every = {{0, microseconds}, {0, microseconds}};
    if (setitimer(ITIMER_REAL, &every, nullptr) != 0) {
        fail("no timer");
    }
}

bool all_valid(const std::vector<uint8_t> &out) {
    for (size_t at = 0; at < out.size(); at += FIELDTEXT_ENTRY) {
        if (out[at] != 0) {
            return false;
        }
    }
    return true;
}

// When so many records had their entry, between the two samples around it.
double moment_of(size_t records) {
    for (size_t i = 1; i < samples.size(); i++) {
        const Sample &before = samples[i - 1], &after = samples[i];
        if (after.records >= records && after.records > before.records) {
            const double part = static_cast<double>(records - before.records) / static_cast<double>(after.records - before.records);
            return before.seconds + part * (after.seconds - before.seconds);
        }
    }
    fail("a record has no entry");
}

} // namespace

std::vector<double> moments(const std::string &book, const std::string &stream, const std::vector<size_t> &marks) {
    std::vector<uint8_t> work(WORK), out(FIELDTEXT_ENTRY * marks.back(), UNWRITTEN);
    const auto bytes = [](const std::string &text) { return reinterpret_cast<const uint8_t *>(text.data()); };
    watched_out = out.data();
    watched_records = marks.back();
    samples.clear();
    samples.reserve(1'000'000);
    struct sigaction action = {};
    action.sa_handler = take_sample;
    action.sa_flags = SA_RESTART;
    sigaction(SIGALRM, &action, nullptr);
    take_sample(0);
    set_timer(TICK);
    const size_t made =
        fieldtext_judge(bytes(book), book.size(), bytes(stream), stream.size(), 0, work.data(), work.size(), out.data(), out.size());
    set_timer(0);
    take_sample(0);
    if (made != marks.back() || !all_valid(out)) {
        fail("not every record is valid");
    }
    std::vector<double> seconds;
    for (const size_t mark : marks) {
        seconds.push_back(moment_of(mark));
    }
    return seconds;
}
