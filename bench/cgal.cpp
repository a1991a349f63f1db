// The proved library against what one would take otherwise, CGAL's triangular expansion: stands answered a second by
// each, side by side in one program, and whether both see the same area. bench/cgal.sh compiles and runs it:
//
//     cgal NAME PLAN STANDS [NAME PLAN STANDS]..
//
// A plan is a plan file, its stands are a CSV with the header x,y. All doors are open.
#include "manopluea.h"

#include <CGAL/Arr_naive_point_location.h>
#include <CGAL/Arr_segment_traits_2.h>
#include <CGAL/Arrangement_2.h>
#include <CGAL/Exact_predicates_exact_constructions_kernel.h>
#include <CGAL/Exact_predicates_inexact_constructions_kernel.h>
#include <CGAL/Exact_rational.h>
#include <CGAL/Triangular_expansion_visibility_2.h>
#include <CGAL/version.h>

#include <algorithm>
#include <chrono>
#include <cmath>
#include <cstdint>
#include <cstdio>
#include <fstream>
#include <functional>
#include <memory>
#include <optional>
#include <sstream>
#include <stdexcept>
#include <string>
#include <vector>

namespace {

// How long a floor is asked over and over, and the fewest rounds behind a median.
constexpr double SECONDS_EACH = 12;
constexpr std::size_t FEWEST_ROUNDS = 11;

// How often CGAL's preparation is made, for its median.
constexpr int PREPARATIONS = 11;

// Areas may differ by so much of themselves.
constexpr double TOLERANCE = 1e-9;

constexpr std::size_t ROW = 4;

using Rational = CGAL::Exact_rational;

[[noreturn]] void stop(const std::string &why) { throw std::runtime_error(why); }

double median(std::vector<double> numbers)
{
    std::sort(numbers.begin(), numbers.end());
    const std::size_t middle = numbers.size() / 2;
    return numbers.size() % 2 == 1 ? numbers[middle] : (numbers[middle - 1] + numbers[middle]) / 2;
}

template <class Work> double seconds(const Work &work)
{
    const auto begin = std::chrono::steady_clock::now();
    work();
    return std::chrono::duration<double>(std::chrono::steady_clock::now() - begin).count();
}

// A point in whole millimetres, or the way from one to another.
struct Spot {
    std::int64_t x, y;
};

Spot operator-(Spot to, Spot from) { return {to.x - from.x, to.y - from.y}; }

// The limits of a plan keep it in 64 bits.
std::int64_t cross(Spot a, Spot b) { return a.x * b.y - a.y * b.x; }

// ---- The floor

struct Side {
    Spot from, to;
    bool wall;
};

struct Plan {
    std::vector<std::int32_t> corners;
    std::vector<std::uint16_t> cells, doors;
    std::uint16_t kind;
    std::size_t cell_count;
    std::vector<Side> sides; // by the number of the face

    Spot corner(std::uint16_t number) const { return {corners[2 * number], corners[2 * number + 1]}; }

    std::size_t walls() const
    {
        return std::count_if(sides.begin(), sides.end(), [](const Side &side) { return side.wall; });
    }
};

std::vector<std::uint8_t> read_bytes(const std::string &path)
{
    std::ifstream file(path, std::ios::binary);
    std::ostringstream copy;
    if (!file || !(copy << file.rdbuf()))
        stop(path + " cannot be read, or is empty");
    const std::string bytes = copy.str();
    return {bytes.begin(), bytes.end()};
}

// The sides of all cells in the order of their face numbers; the plan is accepted.
std::vector<Side> sides_of(const Plan &plan)
{
    std::vector<Side> sides;
    for (std::size_t at = 0; at < plan.cells.size();) {
        const std::size_t count = plan.kind == MANOPLUEA_TRIANGLES ? 3 : plan.cells[at++];
        const std::uint16_t *corners = &plan.cells[at], *neighbours = corners + count;
        for (std::size_t side = 0; side < count; side++)
            sides.push_back({plan.corner(corners[side]), plan.corner(corners[(side + 1) % count]),
                             neighbours[side] == MANOPLUEA_WALL});
        at += 2 * count;
    }
    return sides;
}

Plan read_plan(const std::string &path)
{
    const std::vector<std::uint8_t> file = read_bytes(path);
    Plan plan{};
    plan.corners.resize(2 * MANOPLUEA_MOST_CORNERS);
    plan.cells.resize((1 + 2 * MANOPLUEA_MOST_SIDES) * MANOPLUEA_MOST_CELLS);
    plan.doors.resize(MANOPLUEA_MOST_DOORS);
    std::uint64_t reply[MANOPLUEA_REPLY];
    manopluea_read(file.data(), file.size(), plan.corners.data(), plan.corners.size(), plan.cells.data(),
                   plan.cells.size(), plan.doors.data(), plan.doors.size(), reply, MANOPLUEA_REPLY);
    if (reply[0] != MANOPLUEA_DONE)
        stop(path + " is refused: " + std::to_string(reply[0]) + " " + std::to_string(reply[1]));
    plan.corners.resize(2 * reply[2]);
    plan.cell_count = reply[3];
    plan.doors.resize(reply[4]);
    plan.kind = static_cast<std::uint16_t>(reply[5]);
    plan.cells.resize(reply[6]);
    plan.sides = sides_of(plan);
    return plan;
}

struct Stand {
    double x, y;

    // Exact: a stand that was listed is of whole millimetres.
    Spot spot() const { return {static_cast<std::int64_t>(x), static_cast<std::int64_t>(y)}; }
};

std::vector<Stand> read_stands(const std::string &path)
{
    std::ifstream file(path);
    std::string line;
    if (!std::getline(file, line) || line != "x,y")
        stop(path + " cannot be read, or its first line is not x,y");
    std::vector<Stand> stands;
    while (std::getline(file, line)) {
        std::istringstream numbers(line);
        Stand stand{};
        char comma = 0;
        if (!(numbers >> stand.x >> comma >> stand.y) || comma != ',' || !(numbers >> std::ws).eof())
            stop(path + ": no stand: " + line);
        stands.push_back(stand);
    }
    if (stands.empty())
        stop(path + " has no stand");
    return stands;
}

// ---- Ours

// The proved library on one floor, with the memory that it is lent.
class Ours {
public:
    Ours(const Plan &plan, const std::vector<Stand> &stands)
        : together(std::min<std::size_t>(MANOPLUEA_MOST_STANDS, stands.size())), plan(plan),
          table(2 * plan.corners.size() * together), replies(3 * together)
    {
        // Twice around, so that the stands of a call stand in a row wherever it begins.
        for (int around = 0; around < 2; around++)
            for (const Stand &stand : stands)
                ring.insert(ring.end(), {MANOPLUEA_POINT, stand.x, stand.y});
    }

    // One stand in one call, which checks the whole plan. Its rows are in the table then.
    void list(const Stand &stand)
    {
        manopluea_list_point(plan.corners.data(), plan.corners.size(), plan.cells.data(), plan.cells.size(),
                             plan.doors.data(), plan.doors.size(), plan.kind, 0, stand.x, stand.y, false, 0, false, 0,
                             table.data(), table.size(), reply, MANOPLUEA_REPLY);
        if (reply[0] != MANOPLUEA_DONE)
            refuse(stand.x, stand.y, reply[0]);
    }

    // As many stands as one call takes, which checks the plan once for all. Each call goes on where the last one ended:
    // so each stand is asked as often as any other.
    std::size_t list_together()
    {
        manopluea_list_stands(plan.corners.data(), plan.corners.size(), plan.cells.data(), plan.cells.size(),
                              plan.doors.data(), plan.doors.size(), plan.kind, 0, &ring[3 * next], 3 * together, false,
                              0, false, 0, table.data(), table.size(), replies.data(), replies.size(), reply,
                              MANOPLUEA_REPLY);
        if (reply[0] != MANOPLUEA_DONE)
            stop("stands are refused together: " + std::to_string(reply[0]));
        for (std::size_t stand = 0; stand < together; stand++)
            if (replies[3 * stand] != MANOPLUEA_DONE)
                refuse(ring[3 * (next + stand) + 1], ring[3 * (next + stand) + 2], replies[3 * stand]);
        next = (next + together) % (ring.size() / 6);
        return together;
    }

    const std::size_t together; // stands a call

    std::uint64_t rows() const { return reply[2]; }
    std::uint64_t crossings() const { return reply[3]; }
    const std::uint16_t *row(std::size_t number) const { return &table[ROW * number]; }

private:
    [[noreturn]] static void refuse(double x, double y, std::uint64_t number)
    {
        std::ostringstream why;
        why << "the stand " << x << "," << y << " is refused: " << number;
        stop(why.str());
    }

    const Plan &plan;
    std::vector<std::uint16_t> table;
    std::vector<std::uint64_t> replies;
    std::vector<double> ring;
    std::size_t next = 0;
    std::uint64_t reply[MANOPLUEA_REPLY];
};

// In halves, so that few of the additions are of fractions with many digits.
Rational sum(const std::vector<Rational> &terms, std::size_t begin, std::size_t end)
{
    if (end - begin <= 1)
        return begin == end ? Rational(0) : terms[begin];
    const std::size_t middle = begin + (end - begin) / 2;
    return sum(terms, begin, middle) + sum(terms, middle, end);
}

Rational half_of_sum(const std::vector<Rational> &terms) { return sum(terms, 0, terms.size()) / Rational(2); }

// Twice the triangle of the stand and what a row shows of its wall. The ray from the stand towards a limit meets the
// line of the wall at wall/along of the way to that limit, where `wall` and `along` are the side values below.
Rational twice_seen(Spot stand, const Side &side, Spot right, Spot left)
{
    const Spot line = side.to - side.from, to_right = right - stand, to_left = left - stand;
    const Rational wall(cross(side.from - stand, line));
    const Rational along_right(cross(to_right, line)), along_left(cross(to_left, line));
    return wall * wall * Rational(cross(to_right, to_left)) / (along_right * along_left);
}

// The area seen by the rows that were listed last.
Rational area_of_rows(const Plan &plan, const Ours &ours, Spot stand)
{
    std::vector<Rational> terms;
    for (std::size_t number = 0; number < ours.rows(); number++) {
        const std::uint16_t *row = ours.row(number);
        terms.push_back(twice_seen(stand, plan.sides[row[0]], plan.corner(row[1]), plan.corner(row[2])));
    }
    return half_of_sum(terms);
}

// ---- CGAL

using Exact = CGAL::Exact_predicates_exact_constructions_kernel;
using Inexact = CGAL::Exact_predicates_inexact_constructions_kernel;

Rational exactly(const Exact::FT &number) { return CGAL::exact(number); }
Rational exactly(Inexact::FT number) { return Rational(number); }

// CGAL on one floor: the arrangement of its walls, and the triangulation that its visibility attaches to that.
template <class Kernel> class Theirs {
public:
    using Arrangement = CGAL::Arrangement_2<CGAL::Arr_segment_traits_2<Kernel>>;
    using Face = typename Arrangement::Face_const_handle;

    // A wall between two cells is a side of both, and so given twice: CGAL makes one edge of what lies on one another,
    // and splits what crosses.
    explicit Theirs(const Plan &plan)
    {
        std::vector<typename Kernel::Segment_2> walls;
        for (const Side &side : plan.sides)
            if (side.wall)
                walls.emplace_back(point(side.from), point(side.to));
        inserting = seconds([&] { CGAL::insert(arrangement, walls.begin(), walls.end()); });
        attaching = seconds([&] { visibility.attach(arrangement); });
    }

    // The bounded face that the stand is strictly inside, if there is one. Location is naive, through all vertices,
    // edges and faces: so it is in the examples of CGAL's manual on visibility.
    std::optional<Face> locate(const Stand &stand) const
    {
        const auto found = location.locate(point(stand.spot()));
        const Face *face = boost::get<Face>(&found);
        return face && !(*face)->is_unbounded() ? std::optional<Face>(*face) : std::nullopt;
    }

    // The polygon that is seen, as an arrangement in the place of the last one.
    void look(const Stand &stand, Face face)
    {
        seen_face = visibility.compute_visibility(point(stand.spot()), face, seen);
    }

    std::size_t seen_corners() const { return seen.number_of_vertices(); }

    // No two of its edges cross, which rounded cut points could make them do.
    bool seen_is_valid() const { return CGAL::is_valid(seen); }

    Rational seen_area() const
    {
        std::vector<Rational> terms;
        const auto first = seen_face->outer_ccb();
        auto edge = first;
        do {
            const auto &from = edge->source()->point(), &to = edge->target()->point();
            terms.push_back(exactly(from.x()) * exactly(to.y()) - exactly(from.y()) * exactly(to.x()));
        } while (++edge != first);
        return half_of_sum(terms);
    }

    const Arrangement &walls() const { return arrangement; }

    double inserting, attaching; // seconds

private:
    static typename Kernel::Point_2 point(Spot spot)
    {
        return {static_cast<double>(spot.x), static_cast<double>(spot.y)};
    }

    Arrangement arrangement, seen;
    typename Arrangement::Face_handle seen_face;
    CGAL::Triangular_expansion_visibility_2<Arrangement, CGAL::Tag_true> visibility;
    CGAL::Arr_naive_point_location<Arrangement> location{arrangement};
};

// With the medians of how long that takes.
template <class Kernel> std::unique_ptr<Theirs<Kernel>> prepare(const Plan &plan)
{
    std::unique_ptr<Theirs<Kernel>> theirs;
    std::vector<double> inserting, attaching;
    for (int time = 0; time < PREPARATIONS; time++) {
        theirs = std::make_unique<Theirs<Kernel>>(plan);
        inserting.push_back(theirs->inserting);
        attaching.push_back(theirs->attaching);
    }
    theirs->inserting = median(inserting);
    theirs->attaching = median(attaching);
    return theirs;
}

// Each stand's face; every stand has one.
template <class Kernel>
std::vector<typename Theirs<Kernel>::Face> faces_of(const Theirs<Kernel> &theirs, const std::vector<Stand> &stands)
{
    std::vector<typename Theirs<Kernel>::Face> faces;
    for (const Stand &stand : stands)
        faces.push_back(theirs.locate(stand).value());
    return faces;
}

// ---- Whether both see the same

struct Agreement {
    std::size_t within, equal, valid; // stands
    double largest;                   // deviation, as a part of the area
    double corners;                   // of CGAL's polygon, in the median
};

template <class Kernel>
Agreement compare(const Plan &plan, const std::vector<Stand> &stands, Ours &ours, Theirs<Kernel> &theirs)
{
    Agreement agreement{};
    std::vector<double> corners;
    for (const Stand &stand : stands) {
        ours.list(stand);
        theirs.look(stand, theirs.locate(stand).value());
        const Rational area = area_of_rows(plan, ours, stand.spot()), other = theirs.seen_area();
        const double deviation = std::abs(CGAL::to_double((other - area) / area));
        agreement.within += deviation <= TOLERANCE;
        agreement.equal += other == area;
        agreement.valid += theirs.seen_is_valid();
        agreement.largest = std::max(agreement.largest, deviation);
        corners.push_back(static_cast<double>(theirs.seen_corners()));
    }
    agreement.corners = median(corners);
    return agreement;
}

// ---- The time

struct Line {
    std::string who;
    std::function<std::size_t()> ask; // in one round; how many stands it answered
    std::vector<double> rates;        // stands a second, of each round
};

// Each has its turn in every round, so that a machine that gets slower or faster does so for all.
void measure(std::vector<Line> &lines)
{
    double spent = 0;
    for (std::size_t round = 0; round < FEWEST_ROUNDS || spent < SECONDS_EACH; round++)
        for (Line &line : lines) {
            std::size_t answered = 0;
            const double time = seconds([&] { answered = line.ask(); });
            line.rates.push_back(static_cast<double>(answered) / time);
            spent += time;
        }
}

std::vector<Line> lines_on(const std::vector<Stand> &stands, Ours &ours, Theirs<Exact> &exact, Theirs<Inexact> &inexact)
{
    const auto list = [&] {
        for (const Stand &stand : stands)
            ours.list(stand);
        return stands.size();
    };
    const auto list_together = [&] {
        std::size_t answered = 0;
        while (answered < stands.size())
            answered += ours.list_together();
        return answered;
    };
    const auto look = [&stands](auto &theirs) {
        return [&stands, &theirs, faces = faces_of(theirs, stands)] {
            for (std::size_t stand = 0; stand < stands.size(); stand++)
                theirs.look(stands[stand], faces[stand]);
            return stands.size();
        };
    };
    const auto locate_and_look = [&] {
        for (const Stand &stand : stands)
            exact.look(stand, exact.locate(stand).value());
        return stands.size();
    };
    const std::string together = std::to_string(ours.together);
    return {
        {"1  ours, a stand a call, the plan checked in each", list, {}},
        {"2  ours, " + together + " stands a call, the plan checked once for them", list_together, {}},
        {"3  CGAL, exact kernel, the stand's face known", look(exact), {}},
        {"4  CGAL, exact kernel, the face located too (naive)", locate_and_look, {}},
        {"5  CGAL, inexact constructions, the face known", look(inexact), {}},
    };
}

// ---- The print-out

template <class Kernel> void print_preparation(const char *kernel, const Theirs<Kernel> &theirs)
{
    std::printf("CGAL's preparation, once and not in the figures, %s: arrangement %.2f ms,\n  triangulation attached "
                "to it %.2f ms\n",
                kernel, 1e3 * theirs.inserting, 1e3 * theirs.attaching);
}

void print_agreement(const char *kernel, const Agreement &agreement, std::size_t stands)
{
    std::printf("area seen, ours and CGAL's, %s: within %g for %zu of %zu stands, the largest\n  deviation %.1e; the "
                "same fraction for %zu; CGAL's polygon a valid arrangement for %zu, with %.0f corners\n",
                kernel, TOLERANCE, agreement.within, stands, agreement.largest, agreement.equal, agreement.valid,
                agreement.corners);
}

void print_lines(const std::vector<Line> &lines)
{
    std::printf("%-62s%12s%10s\n", "queries a second", "median", "/ line 1");
    const double first = median(lines.front().rates);
    for (const Line &line : lines)
        std::printf("%-62s%12.0f%10.2f\n", line.who.c_str(), median(line.rates), median(line.rates) / first);
    std::printf("of %zu rounds\n\n", lines.front().rates.size());
}

// How the walls meet: CGAL takes a floor with loose ends and with corners that only touch, too.
void print_walls(const Theirs<Exact>::Arrangement &walls)
{
    std::size_t ends = 0, meetings = 0;
    for (auto corner = walls.vertices_begin(); corner != walls.vertices_end(); ++corner) {
        ends += corner->degree() == 1;
        meetings += corner->degree() > 2;
    }
    std::printf("CGAL's arrangement of the walls: %zu edges, %zu vertices, %zu faces; in %zu vertices a wall ends,\n"
                "  in %zu more than two walls meet\n",
                walls.number_of_edges(), walls.number_of_vertices(), walls.number_of_faces(), ends, meetings);
}

void print_medians(Ours &ours, const std::vector<Stand> &stands, std::size_t left_out)
{
    std::vector<double> rows, crossings;
    for (const Stand &stand : stands) {
        ours.list(stand);
        rows.push_back(static_cast<double>(ours.rows()));
        crossings.push_back(static_cast<double>(ours.crossings()));
    }
    std::printf("%zu stands, in the median %.0f rows and %.0f crossings; %zu left out as not inside a bounded face\n",
                stands.size(), median(rows), median(crossings), left_out);
}

void print_what_is_done()
{
    const char *const lines[][3] = {
        {"", "ours", "CGAL"},
        {"plan", "checked whole in each call, for one stand (1)", "not checked: walls are segments in any position,"},
        {"", "or for 32 (2): limits, convex cells, that", "split where they cross; prepared once, before"},
        {"", "neighbours answer, doors, overlap", "the first query"},
        {"triangles", "the plan's cells, as they are given, with the", "its own, of the walls alone: a constrained"},
        {"", "corners inside the floor too", "Delaunay triangulation"},
        {"stand", "whole millimetres; found in each call", "any number; found in the triangulation in each"},
        {"", "and for any stand", "call, for stands in the face that is given"},
        {"wrong input", "every input has one fixed reply", "preconditions are the caller's; CGAL's own"},
        {"", "and harms nothing", "checks are off, as in every release build"},
        {"answer", "rows: the number of a wall and, as corners,", "the polygon seen, with its cut points, built as"},
        {"", "its limits; no cut point is worked out", "an arrangement; not which wall an edge is of"},
        {"numbers", "whole and exact", "3, 4: exact, as lazy numbers, worked out as far"},
        {"", "on every input", "as was needed; 5: rounded"},
        {"doors, reach", "asked with each query", "a door is another arrangement; no reach"},
        {"ground", "proved", "tested, not proved"},
    };
    std::puts("What each does for a query. Ours checks the plan each time, which CGAL does not; CGAL works out cut "
              "points\nand builds a polygon, which ours does not.");
    for (const auto &[what, ours, cgal] : lines)
        std::printf("%-16s%-48s%s\n", what, ours, cgal);
}

// ---- A floor

void report(const std::string &name, const std::string &plan_path, const std::string &stands_path)
{
    const Plan plan = read_plan(plan_path);
    std::vector<Stand> stands = read_stands(stands_path);
    Ours every(plan, stands);
    for (const Stand &stand : stands)
        every.list(stand); // stops at one that is refused
    const auto exact = prepare<Exact>(plan);
    const auto inexact = prepare<Inexact>(plan);
    const auto unplaced = [&](const Stand &stand) { return !exact->locate(stand); };
    const std::size_t given = stands.size();
    stands.erase(std::remove_if(stands.begin(), stands.end(), unplaced), stands.end());
    if (stands.empty())
        stop(stands_path + ": no stand is inside a bounded face");
    Ours ours(plan, stands);

    std::printf("%s: %zu corners, %zu cells, %zu walls\n", name.c_str(), plan.corners.size() / 2, plan.cell_count,
                plan.walls());
    print_medians(ours, stands, given - stands.size());
    print_walls(exact->walls());
    print_preparation("exact kernel", *exact);
    print_preparation("inexact constructions", *inexact);
    const Agreement with_exact = compare(plan, stands, ours, *exact);
    const Agreement with_inexact = compare(plan, stands, ours, *inexact);
    print_agreement("exact kernel", with_exact, stands.size());
    print_agreement("inexact constructions", with_inexact, stands.size());
    std::vector<Line> lines = lines_on(stands, ours, *exact, *inexact);
    measure(lines);
    print_lines(lines);
    if (with_exact.equal < stands.size() || with_inexact.within < stands.size())
        stop("the two do not see the same area");
}

} // namespace

int main(int count, char **words)
{
    if (count < 4 || count % 3 != 1) {
        std::fprintf(stderr, "usage: cgal NAME PLAN STANDS [NAME PLAN STANDS]..\n");
        return 1;
    }
    try {
        std::printf("CGAL %s, compiled by %s\n\n", CGAL_VERSION_STR, __VERSION__);
        for (int word = 1; word < count; word += 3)
            report(words[word], words[word + 1], words[word + 2]);
        print_what_is_done();
    } catch (const std::exception &fault) {
        std::fflush(stdout);
        std::fprintf(stderr, "%s: %s\n", words[0], fault.what());
        return 1;
    }
    return 0;
}
