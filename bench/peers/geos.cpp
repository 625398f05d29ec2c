// GEOS: its counter of crossings, which tells the edge, over a ring of doubles.
#include "../field.hpp"

#include <geos/algorithm/RayCrossingCounter.h>
#include <geos/geom/Coordinate.h>
#include <geos/geom/CoordinateArraySequence.h>
#include <geos/geom/Location.h>
#include <geos/version.h>

namespace {

using geos::geom::Coordinate;
using geos::geom::Location;

class Geos : public Geometry {
public:
    std::string name() const override { return "GEOS"; }
    std::string version() const override { return GEOS_VERSION; }
    void take(const std::vector<Point> &corners) override {
        std::vector<Coordinate> ring;
        for (const Point &corner : corners) {
            ring.emplace_back(corner.x, corner.y);
        }
        ring.push_back(ring.front());
        ring_ = std::make_unique<geos::geom::CoordinateArraySequence>(std::move(ring));
    }
    Place place(Point point) const override {
        switch (geos::algorithm::RayCrossingCounter::locatePointInRing(Coordinate(point.x, point.y), *ring_)) {
        case Location::BOUNDARY: return EDGE;
        case Location::INTERIOR: return INSIDE;
        default: return OUTSIDE;
        }
    }

private:
    std::unique_ptr<geos::geom::CoordinateArraySequence> ring_;
};

const EnterGeometry<Geos> enter;

} // namespace
