// Boost.Geometry: `covered_by` over a ring of doubles. It counts the edge as inside.
#include "../field.hpp"

// Boost's own headers include one that it has renamed.
#define BOOST_ALLOW_DEPRECATED_HEADERS
#include <boost/geometry.hpp>
#include <boost/version.hpp>

namespace {

namespace geometry = boost::geometry;
using Corner = geometry::model::d2::point_xy<double>;

class BoostGeometry : public Geometry {
public:
    std::string name() const override { return "Boost.Geometry"; }
    std::string version() const override {
        return std::to_string(BOOST_VERSION / 100000) + "." + std::to_string(BOOST_VERSION / 100 % 1000);
    }
    bool tells_edge() const override { return false; }
    void take(const std::vector<Point> &corners) override {
        ring_.clear();
        for (const Point &corner : corners) {
            ring_.emplace_back(corner.x, corner.y);
        }
        geometry::correct(ring_);
    }
    Place place(Point point) const override { return geometry::covered_by(Corner(point.x, point.y), ring_) ? INSIDE : OUTSIDE; }

private:
    geometry::model::ring<Corner> ring_;
};

const EnterGeometry<BoostGeometry> enter;

} // namespace
