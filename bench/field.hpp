// What the parts of the measurement of fields share.
#pragma once

#include "../include/fieldtext.h"
#include "bench.hpp"

#include <random>

struct Point {
    int32_t x, y;
};

enum Place { OUTSIDE, INSIDE, EDGE };

// Where a point lies, and the corner nearest to it.
struct Answer {
    Place place;
    size_t nearest;
};

// A field with its text and points to locate in it.
struct Field {
    std::vector<Point> corners, points;
    std::string text;
};

// So many points anywhere in the range; one in eight is a corner.
std::vector<Point> points_for(std::mt19937_64 &numbers, const std::vector<Point> &corners, size_t count);

// What the library is lent.
struct Lent {
    std::vector<uint8_t> table = std::vector<uint8_t>(FIELDTEXT_TABLE);
    std::vector<int32_t> corners = std::vector<int32_t>(FIELDTEXT_CORNERS);
};

const uint8_t *bytes_of(const std::string &text);

// The answer of fieldtext_locate, which must not refuse; and how many corners fieldtext_corners takes.
Answer locate(const Field &field, Point point, Lent &lent);
size_t read_corners(const Field &field, Lent &lent);

// The same test written by hand: a reader of this one format, without a check of JSON beyond it, and a loop over the sides.
bool read_by_hand(const std::string &text, std::vector<Point> &corners);
Answer locate_by_hand(const std::vector<Point> &corners, Point point);

// A library of geometry that says where a point lies in a ring that it was given before.
class Geometry {
public:
    virtual ~Geometry() = default;
    virtual std::string name() const = 0;
    virtual std::string version() const = 0;
    // It tells the edge from the inside.
    virtual bool tells_edge() const { return true; }
    virtual void take(const std::vector<Point> &corners) = 0;
    virtual Place place(Point point) const = 0;
    // It finds the point at that place, as far as it tells places apart.
    bool agrees(Point point, Place found) const { return place(point) == (tells_edge() || found != EDGE ? found : INSIDE); }
};

// All that take part. A library's file enters itself.
std::vector<std::unique_ptr<Geometry>> &geometries();

template <class T> struct EnterGeometry {
    EnterGeometry() { geometries().push_back(std::make_unique<T>()); }
};

// So many runs, one after another; gives the seconds of one. A run gives a number, so that it cannot be left out.
std::function<double()> timed(size_t often, std::function<size_t()> run);

// A call for each of the points, so many times; gives the seconds of one.
std::function<double()> timed(const std::vector<Point> &points, size_t often, std::function<size_t(Point)> call);

// The head of the table of tracks; and its rows for a field, measured with points of their own.
std::vector<std::string> track_head();
std::vector<std::vector<std::string>> measure_tracks(Report &report, const Field &field, int rounds);
