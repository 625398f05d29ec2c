// Measures the calls for fields beside the same written by hand, and beside libraries of geometry: bench/README.md.
#include "field.hpp"

#include <algorithm>
#include <chrono>
#include <cmath>
#include <cstdlib>

namespace {

constexpr size_t SIZES[] = {4, 64, 1024};
constexpr size_t POINTS = 64;
constexpr int REACH = 1'000'000;

// A ring without crossings: corners around the middle, at a distance by chance.
std::vector<Point> ring(std::mt19937_64 &numbers, size_t count) {
    std::vector<Point> corners;
    for (size_t i = 0; i < count; i++) {
        const double turn = 2 * std::acos(-1.0) * static_cast<double>(i) / static_cast<double>(count);
        const double far = 400'000 + static_cast<double>(numbers() % 600'000);
        corners.push_back({static_cast<int32_t>(std::lround(far * std::cos(turn))), static_cast<int32_t>(std::lround(far * std::sin(turn)))});
    }
    return corners;
}

Field field_of(uint64_t seed, size_t count) {
    std::mt19937_64 numbers(seed);
    Field field;
    field.corners = ring(numbers, count);
    field.points = points_for(numbers, field.corners, POINTS);
    for (const Point &corner : field.corners) {
        field.text += (field.text.empty() ? "[" : ",[") + std::to_string(corner.x) + "," + std::to_string(corner.y) + "]";
    }
    field.text = "{\"name\":\"Long Acre\",\"corners\":[" + field.text + "]}";
    return field;
}

uint8_t answer_of(const Field &field, Point point, Lent &lent, size_t &nearest) {
    return fieldtext_locate(bytes_of(field.text), field.text.size(), point.x, point.y, lent.table.data(), lent.corners.data(), &nearest);
}

// The text behind an RS, judged by book B as any other record.
size_t judge(const std::string &stream) {
    static const std::string book = FIELD_BOOK;
    uint8_t work[3 * 96], entry[FIELDTEXT_ENTRY];
    const size_t made = fieldtext_judge(bytes_of(book), book.size(), bytes_of(stream), stream.size(), 0, work, sizeof work, entry, sizeof entry);
    if (made != 1 || entry[0] != 0) {
        fail("the text is not valid");
    }
    return made;
}

// All give the same answers.
void check(const Field &field, Lent &lent) {
    std::vector<Point> read;
    if (!read_by_hand(field.text, read) || read.size() != field.corners.size() || read_corners(field, lent) != read.size()) {
        fail("the corners are not read");
    }
    size_t met[3] = {0, 0, 0};
    for (const Point &point : field.points) {
        const Answer ours = locate(field, point, lent), other = locate_by_hand(read, point);
        met[ours.place]++;
        if (ours.place != other.place || ours.nearest != other.nearest) {
            fail("a point has another answer by hand");
        }
        for (const auto &peer : geometries()) {
            if (!peer->agrees(point, ours.place)) {
                fail("a point has another place by " + peer->name());
            }
        }
    }
    if (met[OUTSIDE] == 0 || met[INSIDE] == 0 || met[EDGE] == 0) {
        fail("no point inside, outside or on the edge");
    }
}

// The seconds that a point takes beyond the text: for each point the best of many calls with it, less the best of as many with a point out of
// range, which read the text and stop, made by turns; and of all points the middle one.
double beyond_text(const Field &field, int rounds, Lent &lent) {
    using Clock = std::chrono::steady_clock;
    const auto seconds = [](Clock::time_point from, Clock::time_point to) { return std::chrono::duration<double>(to - from).count(); };
    std::vector<double> differences;
    size_t nearest;
    for (const Point &point : field.points) {
        double with = 1, without = 1;
        for (int i = 0; i < 20 * rounds; i++) {
            const auto begin = Clock::now();
            answer_of(field, point, lent, nearest);
            const auto middle = Clock::now();
            answer_of(field, {REACH + 1, 0}, lent, nearest);
            with = std::min(with, seconds(begin, middle));
            without = std::min(without, seconds(middle, Clock::now()));
        }
        differences.push_back(with - without);
    }
    std::sort(differences.begin(), differences.end());
    return differences[differences.size() / 2];
}

// The calls that are measured, with their names.
struct Calls {
    std::vector<std::string> names;
    std::vector<std::function<double()>> list;
    void add(const std::string &name, std::function<double()> call) {
        names.push_back(name);
        list.push_back(std::move(call));
    }
};

Calls calls_for(const Field &field, Lent &lent, std::vector<Point> &read) {
    Calls calls;
    const size_t slow = 2048 / field.corners.size(), fast = 32 * slow;
    calls.add("text to answer", timed(field.points, slow, [&](Point point) { return locate(field, point, lent).nearest; }));
    calls.add("text alone", timed(field.points, slow, [&](Point) { return read_corners(field, lent); }));
    calls.add("text judged", timed(field.points, slow, [&](Point) { return judge(RS + field.text); }));
    calls.add("text to answer by hand", timed(field.points, slow, [&](Point point) {
                  read_by_hand(field.text, read);
                  return locate_by_hand(read, point).nearest;
              }));
    calls.add("by hand", timed(field.points, fast, [&](Point point) { return locate_by_hand(field.corners, point).nearest; }));
    for (const auto &peer : geometries()) {
        calls.add(peer->name(), timed(field.points, fast, [&](Point point) { return static_cast<size_t>(peer->place(point)); }));
    }
    return calls;
}

// A table each for the text, for the point alone and for tracks.
struct Tables {
    std::vector<std::vector<std::string>> texts, points, tracks;
};

void measure(Report &report, Tables &tables, size_t count, int rounds) {
    const Field field = field_of(count, count);
    Lent lent;
    std::vector<Point> read;
    for (const auto &peer : geometries()) {
        peer->take(field.corners);
    }
    check(field, lent);
    const Calls calls = calls_for(field, lent, read);
    const std::vector<Times> times = in_rounds(rounds, calls.list);
    for (size_t i = 0; i < times.size(); i++) {
        report.result({"field", std::to_string(count), calls.names[i], digits(1e9 * times[i].best, 1), digits(1e9 * times[i].median, 1)});
    }
    const auto micro = [](double seconds) { return digits(1e6 * seconds, 2); };
    tables.texts.push_back({grouped(count), grouped(field.text.size()), micro(times[0].best), micro(times[1].best), micro(times[2].best),
                            micro(times[3].best), digits(times[3].best / times[0].best, 3)});
    const double sides = static_cast<double>(count);
    const double beyond = beyond_text(field, rounds, lent);
    report.result({"field", std::to_string(count), "point beyond the text", digits(1e9 * beyond, 1)});
    std::vector<std::string> row = {grouped(count), digits(1e9 * beyond / sides, 2)};
    for (size_t i = 4; i < times.size(); i++) {
        row.push_back(digits(1e9 * times[i].best / sides, 2));
    }
    tables.points.push_back(row);
    for (const auto &track : measure_tracks(report, field, rounds)) {
        tables.tracks.push_back(track);
    }
}

} // namespace

std::vector<Point> points_for(std::mt19937_64 &numbers, const std::vector<Point> &corners, size_t count) {
    std::vector<Point> points;
    for (size_t i = 0; i < count; i++) {
        const auto coordinate = [&] { return static_cast<int32_t>(numbers() % (2 * REACH + 1)) - REACH; };
        points.push_back(i % 8 == 7 ? corners[numbers() % corners.size()] : Point{coordinate(), coordinate()});
    }
    return points;
}

const uint8_t *bytes_of(const std::string &text) { return reinterpret_cast<const uint8_t *>(text.data()); }

Answer locate(const Field &field, Point point, Lent &lent) {
    size_t nearest;
    const uint8_t answer = answer_of(field, point, lent, nearest);
    if (answer > FIELDTEXT_EDGE) {
        fail("the field is refused: " + std::to_string(answer));
    }
    return {answer == FIELDTEXT_EDGE ? EDGE : answer == FIELDTEXT_INSIDE ? INSIDE : OUTSIDE, nearest};
}

size_t read_corners(const Field &field, Lent &lent) {
    uint8_t refusal;
    return fieldtext_corners(bytes_of(field.text), field.text.size(), lent.table.data(), lent.corners.data(), &refusal);
}

std::function<double()> timed(size_t often, std::function<size_t()> run) {
    return [often, run] {
        [[maybe_unused]] static volatile size_t kept;
        using Clock = std::chrono::steady_clock;
        const auto begin = Clock::now();
        size_t sum = 0;
        for (size_t i = 0; i < often; i++) {
            sum += run();
        }
        kept = sum;
        return std::chrono::duration<double>(Clock::now() - begin).count() / static_cast<double>(often);
    };
}

std::function<double()> timed(const std::vector<Point> &points, size_t often, std::function<size_t(Point)> call) {
    const auto all = timed(often, [&points, call] {
        size_t sum = 0;
        for (const Point &point : points) {
            sum += call(point);
        }
        return sum;
    });
    return [&points, all] { return all() / static_cast<double>(points.size()); };
}

std::vector<std::unique_ptr<Geometry>> &geometries() {
    static std::vector<std::unique_ptr<Geometry>> all;
    return all;
}

int main(int count, char **words) {
    if (count != 4) {
        fail("usage: field ROUNDS MARKDOWN RESULTS");
    }
    const int rounds = std::atoi(words[1]);
    Report report(words[2], words[3]);
    Tables tables;
    std::vector<std::string> head = {"corners", "ours", "by hand"};
    for (const auto &peer : geometries()) {
        report.line("- " + peer->name() + ": " + peer->version());
        report.result({"reader", peer->name(), peer->version()});
        head.push_back(peer->name());
    }
    report.line("");
    for (const size_t size : SIZES) {
        measure(report, tables, size, rounds);
    }
    report.line("## A text and a point, microseconds\n");
    report.table({"corners", "bytes", "ours", "ours, text alone", "ours, judged alone", "by hand", "by hand / ours"}, tables.texts);
    report.line("## The point alone, ns for each side\n");
    report.table(head, tables.points);
    report.line("## A track in one call, and a point of it\n");
    report.table(track_head(), tables.tracks);
}
