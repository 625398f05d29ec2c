// A field read and a point located as one would write it in C++ for this format alone.
#include "field.hpp"

#include <algorithm>

namespace {

constexpr int64_t REACH = 1'000'000;
constexpr size_t LEAST = 3, MOST = 1024;

class Text {
public:
    explicit Text(const std::string &text) : at_(text.data()), end_(at_ + text.size()) {}

    // Takes a byte after blanks.
    bool take(char byte) {
        blanks();
        if (at_ == end_ || *at_ != byte) {
            return false;
        }
        at_++;
        return true;
    }

    bool ended() {
        blanks();
        return at_ == end_;
    }

    // The bytes between two quotation marks; none where the string does not end. An escape is passed over.
    bool string(std::string &bytes) {
        if (!take('"')) {
            return false;
        }
        const char *const start = at_;
        while (at_ < end_ && *at_ != '"') {
            at_ += *at_ == '\\' ? 2 : 1;
        }
        if (at_ >= end_) {
            return false;
        }
        bytes.assign(start, at_++);
        return true;
    }

    bool coordinate(int32_t &number) {
        const bool negative = take('-');
        const char *const start = at_;
        int64_t size = 0;
        for (; at_ < end_ && *at_ >= '0' && *at_ <= '9' && size <= REACH; at_++) {
            size = 10 * size + (*at_ - '0');
        }
        number = static_cast<int32_t>(negative ? -size : size);
        return at_ > start && size <= REACH;
    }

private:
    void blanks() {
        while (at_ < end_ && (*at_ == ' ' || *at_ == '\n' || *at_ == '\r' || *at_ == '\t')) {
            at_++;
        }
    }

    const char *at_, *end_;
};

bool read_corners(Text &text, std::vector<Point> &corners) {
    if (!text.take('[')) {
        return false;
    }
    do {
        Point corner;
        if (!text.take('[') || !text.coordinate(corner.x) || !text.take(',') || !text.coordinate(corner.y) || !text.take(']')) {
            return false;
        }
        corners.push_back(corner);
    } while (text.take(','));
    return text.take(']') && corners.size() >= LEAST && corners.size() <= MOST;
}

// Exactly on the side from a to b.
bool on_side(Point a, Point b, Point p, int64_t turn) {
    return turn == 0 && std::min(a.x, b.x) <= p.x && p.x <= std::max(a.x, b.x) && std::min(a.y, b.y) <= p.y && p.y <= std::max(a.y, b.y);
}

} // namespace

bool read_by_hand(const std::string &bytes, std::vector<Point> &corners) {
    Text text(bytes);
    std::string key, name;
    bool named = false, cornered = false;
    corners.clear();
    if (!text.take('{')) {
        return false;
    }
    do {
        if (!text.string(key) || !text.take(':')) {
            return false;
        }
        bool &met = key == "name" ? named : cornered;
        if (met || !(key == "name" ? text.string(name) : key == "corners" && read_corners(text, corners))) {
            return false;
        }
        met = true;
    } while (text.take(','));
    return text.take('}') && text.ended() && named && cornered;
}

Answer locate_by_hand(const std::vector<Point> &corners, Point p) {
    bool edge = false, inside = false;
    size_t nearest = 0;
    int64_t least = INT64_MAX;
    Point a = corners.back();
    for (size_t i = 0; i < corners.size(); i++) {
        const Point b = corners[i];
        const int64_t turn = int64_t{b.x - a.x} * (p.y - a.y) - int64_t{b.y - a.y} * (p.x - a.x);
        edge |= on_side(a, b, p, turn);
        inside ^= (a.y > p.y) != (b.y > p.y) && (b.y > a.y) == (turn > 0);
        const int64_t across = b.x - p.x, along = b.y - p.y, distance = across * across + along * along;
        if (distance < least) {
            least = distance;
            nearest = i;
        }
        a = b;
    }
    return {edge ? EDGE : inside ? INSIDE : OUTSIDE, nearest};
}
