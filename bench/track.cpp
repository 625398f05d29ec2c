// Measures tracks, answered in one call, beside a call for each point and beside the peers: bench/README.md.
#include "field.hpp"

#include <algorithm>
#include <cmath>
#include <deque>

namespace {

constexpr size_t LENGTHS[] = {1, 100, 10'000};
// A call for one point reads the whole text, so only so many points of a track get one.
constexpr size_t SINGLE = 100;
// A text takes about as long as so many of its points.
constexpr size_t TEXT = 80;

using Track = std::vector<fieldtext_track_point>;

// Points of one length of track, the first of them for single calls, and the track that is handed over.
struct Drive {
    std::vector<Point> points, first;
    Track track;
};

Track track_of(const std::vector<Point> &points) {
    Track track;
    for (const Point &point : points) {
        track.push_back({point.x, point.y, UINT32_MAX, UINT32_MAX});
    }
    return track;
}

uint8_t answer(const std::string &text, Track &track, Lent &lent) {
    return fieldtext_track(bytes_of(text), text.size(), track.data(), track.size(), lent.table.data(), lent.corners.data());
}

bool holds(const fieldtext_track_point &entry, Point point, uint32_t place, size_t nearest) {
    return entry.x == point.x && entry.y == point.y && entry.answer == place && entry.nearest == nearest;
}

// How often something is done that takes so many sides: for some milliseconds, and at least once.
size_t often(size_t sides) { return std::max<size_t>(1, (size_t{1} << 22) / sides); }

uint32_t number_of(Place place) { return place == EDGE ? FIELDTEXT_EDGE : place == INSIDE ? FIELDTEXT_INSIDE : FIELDTEXT_OUTSIDE; }

// Each entry has the answer that its point has by hand and by the peers, and the first ones that of a single call. A point out of range
// gets 33, and a text without its last byte leaves the track as it is.
void check(const Field &field, std::vector<Point> points, Lent &lent) {
    const size_t beyond = points.size() / 2;
    points[beyond].x = 1'000'001;
    Track track = track_of(points);
    if (answer(field.text.substr(0, field.text.size() - 1), track, lent) != 31) {
        fail("a text without its last byte is not refused");
    }
    for (size_t i = 0; i < points.size(); i++) {
        if (!holds(track[i], points[i], UINT32_MAX, UINT32_MAX)) {
            fail("a refused text touches the track");
        }
    }
    if (answer(field.text, track, lent) != 0) {
        fail("the track is refused");
    }
    for (size_t i = 0; i < points.size(); i++) {
        if (i == beyond) {
            if (!holds(track[i], points[i], 33, 0)) {
                fail("a point out of range does not get 33");
            }
            continue;
        }
        const Answer hand = locate_by_hand(field.corners, points[i]), single = i < SINGLE ? locate(field, points[i], lent) : hand;
        if (!holds(track[i], points[i], number_of(hand.place), hand.nearest) || single.place != hand.place || single.nearest != hand.nearest) {
            fail("a point of a track has another answer");
        }
        for (const auto &peer : geometries()) {
            if (!peer->agrees(points[i], hand.place)) {
                fail("a point of a track has another place by " + peer->name());
            }
        }
    }
}

// The calls that are measured with one drive: in one call, in single calls, by hand, and by each peer.
void add_calls(std::vector<std::function<double()>> &calls, const Field &field, Drive &drive, Lent &lent, std::vector<Point> &read) {
    const size_t sides = field.corners.size(), count = drive.points.size();
    calls.push_back(timed(often(sides * (TEXT + count)), [&] { return answer(field.text, drive.track, lent) + size_t{drive.track[0].nearest}; }));
    calls.push_back(timed(drive.first, often(sides * TEXT * drive.first.size()), [&](Point point) { return locate(field, point, lent).nearest; }));
    calls.push_back(timed(often(sides * (TEXT + count)), [&] {
        size_t sum = 0;
        read_by_hand(field.text, read);
        for (const Point &point : drive.points) {
            sum += locate_by_hand(read, point).nearest;
        }
        return sum;
    }));
    for (const auto &peer : geometries()) {
        calls.push_back(timed(drive.points, often(sides * count), [&](Point point) { return static_cast<size_t>(peer->place(point)); }));
    }
}

// Their names among the results.
std::vector<std::string> names() {
    std::vector<std::string> all = {"all in one call", "single call", "all by hand"};
    for (const auto &peer : geometries()) {
        all.push_back(peer->name());
    }
    return all;
}

std::string micro(double seconds) { return seconds < 1e-3 ? digits(1e6 * seconds, 1) : grouped(static_cast<size_t>(std::llround(1e6 * seconds))); }
std::string nano(double seconds) { return grouped(static_cast<size_t>(std::llround(1e9 * std::max(0.0, seconds)))); }

// The row of a track of so many points, from the times of its calls and the seconds of its field's text.
std::vector<std::string> row_of(size_t corners, size_t length, const Times *own, double text) {
    const double points = static_cast<double>(length), call = own[0].best, single = own[1].best;
    std::vector<std::string> row = {grouped(corners), grouped(length), micro(call), micro(text), nano(call / points)};
    // what one point adds to a text is less than two runs with that text differ by
    row.push_back(length == 1 ? "-" : nano((call - text) / points));
    row.push_back(nano(single));
    row.push_back(digits(single * points / call, 1));
    row.push_back(nano(own[2].best / points));
    for (size_t i = 3; i < names().size(); i++) {
        row.push_back(nano(own[i].best));
    }
    return row;
}

} // namespace

std::vector<std::string> track_head() {
    std::vector<std::string> head = {"corners",         "points",       "one call, us", "text alone, us", "a point, ns", "without the text, ns",
                                     "single call, ns", "single / one", "by hand, ns"};
    for (const auto &peer : geometries()) {
        head.push_back(peer->name() + ", ns");
    }
    return head;
}

std::vector<std::vector<std::string>> measure_tracks(Report &report, const Field &field, int rounds) {
    const size_t corners = field.corners.size();
    std::mt19937_64 numbers(corners);
    Lent lent;
    std::vector<Point> read;
    std::deque<Drive> drives;
    std::vector<std::function<double()>> calls = {timed(often(corners * TEXT), [&] { return read_corners(field, lent); })};
    for (const size_t length : LENGTHS) {
        const std::vector<Point> points = points_for(numbers, field.corners, length);
        check(field, points, lent);
        drives.push_back({points, {points.begin(), points.begin() + static_cast<std::ptrdiff_t>(std::min(length, SINGLE))}, track_of(points)});
        add_calls(calls, field, drives.back(), lent, read);
    }
    const std::vector<Times> times = in_rounds(rounds, calls);
    const auto result = [&](size_t length, const std::string &name, const Times &time) {
        report.result({"track", std::to_string(corners), std::to_string(length), name, digits(1e9 * time.best, 1), digits(1e9 * time.median, 1)});
    };
    result(0, "text alone", times[0]);
    std::vector<std::vector<std::string>> rows;
    const Times *own = &times[1];
    for (const size_t length : LENGTHS) {
        for (size_t i = 0; i < names().size(); i++) {
            result(length, names()[i], own[i]);
        }
        rows.push_back(row_of(corners, length, own, times[0].best));
        own += names().size();
    }
    return rows;
}
