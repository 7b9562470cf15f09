// The chosen cell by GEOS, as a measure for the quick road: the same cells from the coarsest level down,
// with the tests `intersects` and `contains` of boxes in doubles against a polygon that is prepared
// once. Boundaries have to be simple. A unit a line comes in, as in the listing; the answer is
//   LEVEL WEST SOUTH LAT LON      the chosen cell, and its location cell's reference
// or `none`. With the word `parse` it reads the lines and answers each with its count of corners.
#include <geos_c.h>

#include <algorithm>
#include <cstdint>
#include <cstdlib>
#include <cstring>
#include <iostream>
#include <string>
#include <vector>

namespace {

constexpr std::int32_t degree = 7372800, minute = 122880, second = 2048, step = 32;
constexpr std::int32_t lat_end = 90 * degree, lon_end = 180 * degree;
constexpr int coarsest = 9, minute_level = 15, finest = 27;

// The nominal size of a level: a degree; or 64 minutes or 64 seconds, halved once for each level.
std::int32_t size_of(int level) {
    if (level == coarsest) return degree;
    return level <= minute_level ? (64 * minute) >> (level - coarsest) : (64 * second) >> (level - minute_level);
}

// The ground after which the cells of a level start afresh.
std::int32_t afresh(int level) { return level <= minute_level ? degree : minute; }

// The shortest side that a cell of the level has: the cut one where cells are cut.
std::int32_t shortest(int level) {
    std::int32_t cut = afresh(level) % size_of(level);
    return cut == 0 ? size_of(level) : cut;
}

struct Stretch {
    std::int32_t from, to;
};

// The stretch of a level's cell that has `at` in it or at its start.
Stretch stretch_at(int level, std::int32_t at) {
    std::int32_t ground = at - at % afresh(level);
    std::int32_t from = at - (at - ground) % size_of(level);
    return {from, std::min(from + size_of(level), ground + afresh(level))};
}

struct Box {
    Stretch lat, lon;
};

bool before(const Box &a, const Box &b) {
    return a.lon.from != b.lon.from ? a.lon.from < b.lon.from : a.lat.from < b.lat.from;
}

bool overlaps(const Stretch &a, const Stretch &b) { return a.from < b.to && b.from < a.to; }
bool within(const Stretch &a, const Stretch &b) { return b.from <= a.from && a.to <= b.to; }
bool overlaps(const Box &a, const Box &b) { return overlaps(a.lat, b.lat) && overlaps(a.lon, b.lon); }
bool within(const Box &a, const Box &b) { return within(a.lat, b.lat) && within(a.lon, b.lon); }

// A unit's polygon, prepared.
class Polygon {
public:
    Polygon(GEOSContextHandle_t geos, const std::vector<double> &closed) : geos(geos) {
        unsigned count = static_cast<unsigned>(closed.size() / 2);
        GEOSCoordSequence *corners = GEOSCoordSeq_copyFromBuffer_r(geos, closed.data(), count, 0, 0);
        whole = GEOSGeom_createPolygon_r(geos, GEOSGeom_createLinearRing_r(geos, corners), nullptr, 0);
        prepared = GEOSPrepare_r(geos, whole);
    }
    ~Polygon() {
        GEOSPreparedGeom_destroy_r(geos, prepared);
        GEOSGeom_destroy_r(geos, whole);
    }
    Polygon(const Polygon &) = delete;
    Polygon &operator=(const Polygon &) = delete;

    bool intersects(const GEOSGeometry *box) const {
        return GEOSPreparedIntersects_r(geos, prepared, box) == 1;
    }
    bool contains(const GEOSGeometry *box) const {
        return GEOSPreparedContains_r(geos, prepared, box) == 1;
    }

private:
    GEOSContextHandle_t geos;
    GEOSGeometry *whole;
    const GEOSPreparedGeometry *prepared;
};

// The search of one unit after the other; its lists are kept from unit to unit.
class Search {
public:
    explicit Search(GEOSContextHandle_t geos) : geos(geos) {}

    bool found = false;
    int level = 0;
    Box best{};

    void run(const Polygon &polygon, const Box &extent) {
        start(extent);
        for (;;) {
            next.clear();
            for (const Box &part : parts) {
                look(polygon, extent, part);
            }
            if (found || level == finest) {
                return;
            }
            ++level;
            parts.swap(next);
        }
    }

private:
    GEOSContextHandle_t geos;
    std::vector<Box> parts, next;

    // The parts are at first the few cells around the unit of the first level at which one can be
    // inside: a coarser cell is longer than the whole unit.
    void start(const Box &extent) {
        std::int32_t span =
            std::max(extent.lat.to - extent.lat.from, extent.lon.to - extent.lon.from);
        found = false;
        for (level = coarsest; level < finest && shortest(level) > span;) {
            ++level;
        }
        parts.clear();
        for (Stretch lon = stretch_at(level, extent.lon.from); begins(lon, extent.lon, lon_end);
             lon = stretch_at(level, lon.to)) {
            for (Stretch lat = stretch_at(level, extent.lat.from); begins(lat, extent.lat, lat_end);
                 lat = stretch_at(level, lat.to)) {
                parts.push_back({lat, lon});
            }
        }
    }

    static bool begins(const Stretch &stretch, const Stretch &extent, std::int32_t end) {
        return stretch.from < extent.to && stretch.from < end;
    }

    // A part is a cell of this level: it becomes the best one, or its quarters are for the next level.
    void look(const Polygon &polygon, const Box &extent, const Box &part) {
        bool may_be_inside = within(part, extent);
        if (found && !(may_be_inside && before(part, best))) {
            return;
        }
        GEOSGeometry *box = GEOSGeom_createRectangle_r(geos, part.lon.from, part.lat.from,
                                                       part.lon.to, part.lat.to);
        // Once a cell is found only `contains` is of interest, for the cells before it.
        if (found || polygon.intersects(box)) {
            if (may_be_inside && polygon.contains(box)) {
                found = true;
                best = part;
            } else if (!found && level < finest) {
                split(extent, part);
            }
        }
        GEOSGeom_destroy_r(geos, box);
    }

    // Puts the quarters of a part that reach into the extent on the next level's list.
    void split(const Box &extent, const Box &part) {
        std::int32_t size = size_of(level + 1);
        Stretch lons[] = {{part.lon.from, std::min(part.lon.from + size, part.lon.to)},
                          {part.lon.from + size, part.lon.to}};
        Stretch lats[] = {{part.lat.from, std::min(part.lat.from + size, part.lat.to)},
                          {part.lat.from + size, part.lat.to}};
        for (const Stretch &lon : lons) {
            for (const Stretch &lat : lats) {
                Box quarter{lat, lon};
                // Cut ground has no second half.
                if (lon.from < lon.to && lat.from < lat.to && overlaps(quarter, extent)) {
                    next.push_back(quarter);
                }
            }
        }
    }
};

// Reads the coordinates of a line after its kind and number as x and y, and closes the ring.
void read_corners(const std::string &line, std::vector<double> &closed) {
    closed.clear();
    const char *at = std::strchr(line.c_str(), ' ');
    at = at ? std::strchr(at + 1, ' ') : nullptr;
    while (at) {
        char *after;
        double lat = static_cast<double>(std::strtol(at, &after, 10));
        double lon = static_cast<double>(std::strtol(after, &after, 10));
        closed.push_back(lon);
        closed.push_back(lat);
        at = *after == ' ' ? after : nullptr;
    }
    if (!closed.empty()) {
        closed.push_back(closed[0]);
        closed.push_back(closed[1]);
    }
}

Box extent_of(const std::vector<double> &closed) {
    double west = closed[0], east = closed[0], south = closed[1], north = closed[1];
    for (std::size_t i = 2; i < closed.size(); i += 2) {
        west = std::min(west, closed[i]);
        east = std::max(east, closed[i]);
        south = std::min(south, closed[i + 1]);
        north = std::max(north, closed[i + 1]);
    }
    return {{static_cast<std::int32_t>(south), static_cast<std::int32_t>(north)},
            {static_cast<std::int32_t>(west), static_cast<std::int32_t>(east)}};
}

// The south or west side of the location cell, from the chosen cell's stretch.
std::int32_t reference(int level, const Stretch &stretch) {
    return level == finest ? stretch.from : stretch.from + (stretch.to - stretch.from) / 2 - step;
}

void answer(const Search &search) {
    if (!search.found) {
        std::cout << "none\n";
        return;
    }
    const Box &best = search.best;
    std::cout << search.level << ' ' << best.lon.from << ' ' << best.lat.from << ' '
              << reference(search.level, best.lat) << ' ' << reference(search.level, best.lon) << '\n';
}

} // namespace

int main(int words, char **word) {
    bool parse = words > 1 && std::strcmp(word[1], "parse") == 0;
    std::ios::sync_with_stdio(false);
    GEOSContextHandle_t geos = GEOS_init_r();
    Search search(geos);
    std::string line;
    std::vector<double> closed;
    while (std::getline(std::cin, line)) {
        read_corners(line, closed);
        if (parse || closed.empty()) {
            std::cout << closed.size() / 2 << '\n';
            continue;
        }
        search.run(Polygon(geos, closed), extent_of(closed));
        answer(search);
    }
    GEOS_finish_r(geos);
}
