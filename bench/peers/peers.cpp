// Measures the calls beside nanoflann, faiss and plain scans in C++ on the herds of bench/src/items.rs, after every
// reply was compared with the scan's: peers SEED.. prints a table in Markdown. bench/peers.sh builds and runs it.

#include <algorithm>
#include <array>
#include <chrono>
#include <cstdint>
#include <cstdio>
#include <cstdlib>
#include <functional>
#include <map>
#include <memory>
#include <string>
#include <type_traits>
#include <unordered_set>
#include <utility>
#include <vector>

#include <faiss/IndexBinaryFlat.h>
#include <faiss/IndexFlat.h>
#include <faiss/impl/AuxIndexStructures.h>
#include <nanoflann.hpp>
#include <omp.h>

#include "vpindex.h"

namespace {

constexpr uint32_t ORDER = 12;
constexpr size_t ITEMS = size_t{1} << ORDER;
constexpr size_t QUERIES = 256;
constexpr size_t ROUNDS = 41;
constexpr size_t FILLS = 11;
constexpr uint32_t K = 10;
constexpr uint16_t DAY = 1;

// ---- Herds: what bench/src/items.rs makes of the same seed ---------------------------------------------------------

// xorshift64*
struct Random {
    uint64_t state;

    uint64_t next() {
        state ^= state >> 12;
        state ^= state << 25;
        state ^= state >> 27;
        return state * UINT64_C(0x2545F4914F6CDD1D);
    }

    uint64_t below(uint64_t n) { return (next() >> 11) % n; }

    vpindex_profile even() {
        vpindex_profile made;
        for (int32_t &measure : made.measures) measure = int32_t(below(2000001)) - 1000000;
        for (uint64_t &word : made.code) word = next();
        return made;
    }

    vpindex_profile near(const vpindex_profile &centre, int flips) {
        vpindex_profile made = centre;
        for (int32_t &measure : made.measures)
            measure = std::clamp(measure + int32_t(below(20001)) - 10000, -VPINDEX_MAX_MEASURE, VPINDEX_MAX_MEASURE);
        for (; flips > 0; flips--) {
            uint64_t bit = below(128);
            made.code[bit / 64] ^= UINT64_C(1) << (bit % 64);
        }
        return made;
    }
};

struct Spread {
    const char *name;
    int flips; // EVEN: evenly spread
};

constexpr int EVEN = -1;
constexpr Spread SPREADS[] = {{"cluster 8", 8}, {"cluster 6", 6}, {"cluster 4", 4}, {"even", EVEN}};

std::vector<vpindex_profile> profiles(uint64_t seed, Spread spread, size_t n) {
    Random random{seed};
    std::vector<vpindex_profile> centres, made;
    for (int i = 0; i < 64; i++) centres.push_back(random.even());
    while (made.size() < n) {
        if (spread.flips == EVEN) {
            made.push_back(random.even());
        } else {
            const vpindex_profile &centre = centres[random.below(64)];
            made.push_back(random.near(centre, spread.flips));
        }
    }
    return made;
}

uint64_t tag_of(size_t i) { return UINT64_C(276000000000000) + (i * 7919) % 1000003; }

// ---- Scans ---------------------------------------------------------------------------------------------------------

using Hit = std::pair<uint32_t, uint64_t>; // distance, tag
using Hits = std::vector<Hit>;

struct Item {
    uint64_t tag;
    vpindex_profile profile;
};

#define ALWAYS inline __attribute__((always_inline))

struct Differences {
    static ALWAYS uint32_t distance(const vpindex_profile &a, const vpindex_profile &b) {
        uint32_t sum = 0;
        for (int i = 0; i < 4; i++) sum += uint32_t(std::abs(a.measures[i] - b.measures[i]));
        return sum;
    }
};

// Counted by shifts and sums: the function that g++ calls where there is no popcnt took twice as long.
ALWAYS uint64_t ones(uint64_t word) {
    word -= (word >> 1) & UINT64_C(0x5555555555555555);
    word = (word & UINT64_C(0x3333333333333333)) + ((word >> 2) & UINT64_C(0x3333333333333333));
    word = (word + (word >> 4)) & UINT64_C(0x0F0F0F0F0F0F0F0F);
    return (word * UINT64_C(0x0101010101010101)) >> 56;
}

struct Bits {
    static ALWAYS uint32_t distance(const vpindex_profile &a, const vpindex_profile &b) {
        return uint32_t(ones(a.code[0] ^ b.code[0]) + ones(a.code[1] ^ b.code[1]));
    }
};

// Counted by the processor, which not every one of its kind can.
struct BitsPopcnt {
    static ALWAYS uint32_t distance(const vpindex_profile &a, const vpindex_profile &b) {
        return uint32_t(__builtin_popcountll(a.code[0] ^ b.code[0]) + __builtin_popcountll(a.code[1] ^ b.code[1]));
    }
};

// Keeps the best, by distance and then tag; the worst one kept is at hand.
template <class Metric>
ALWAYS void keep_best(const std::vector<Item> &items, const vpindex_profile &query, Hits &best) {
    best.clear();
    Hit worst{UINT32_MAX, UINT64_MAX};
    for (const Item &item : items) {
        Hit hit{Metric::distance(item.profile, query), item.tag};
        if (!(hit < worst)) continue;
        if (best.size() == K) best.pop_back();
        best.insert(std::lower_bound(best.begin(), best.end(), hit), hit);
        if (best.size() == K) worst = best.back();
    }
}

// All within the radius, by distance and then tag.
template <class Metric>
ALWAYS void keep_within(const std::vector<Item> &items, const vpindex_profile &query, uint32_t radius, Hits &hits) {
    hits.clear();
    for (const Item &item : items) {
        uint32_t distance = Metric::distance(item.profile, query);
        if (distance <= radius) hits.emplace_back(distance, item.tag);
    }
    std::sort(hits.begin(), hits.end());
}

struct Scan {
    std::vector<Item> items;
    Hits hits;

    void add(uint64_t tag, const vpindex_profile &profile) { items.push_back({tag, profile}); }

    template <class Metric> void nearest(const vpindex_profile &query) { keep_best<Metric>(items, query, hits); }

    template <class Metric> void range(const vpindex_profile &query, uint32_t radius) {
        keep_within<Metric>(items, query, radius, hits);
    }

    __attribute__((target("popcnt"))) void nearest_popcnt(const vpindex_profile &query) {
        keep_best<BitsPopcnt>(items, query, hits);
    }

    __attribute__((target("popcnt"))) void range_popcnt(const vpindex_profile &query, uint32_t radius) {
        keep_within<BitsPopcnt>(items, query, radius, hits);
    }
};

// ---- The calls -----------------------------------------------------------------------------------------------------

void must(bool holds, const char *what) {
    if (holds) return;
    std::fprintf(stderr, "peers: %s\n", what);
    std::exit(1);
}

using Row = uint32_t[VPINDEX_ROW_WORDS];
using Entry = uint64_t[VPINDEX_ENTRY_WORDS];

struct Calls {
    std::unique_ptr<Row[]> table{new Row[VPINDEX_TABLE_ROWS(ORDER)]()};
    std::unique_ptr<Row[]> work{new Row[VPINDEX_WORK_ROWS(ORDER)]()};
    std::unique_ptr<Entry[]> result{new Entry[VPINDEX_RESULT_ENTRIES(ORDER)]()};
    size_t room = K; // of the area that range is lent
    vpindex_searched reply{};

    explicit Calls(uint32_t metric) {
        must(vpindex_fresh(table.get(), rows(), ORDER, metric, VPINDEX_WEIGHTS_ONE) == VPINDEX_ACCEPTED, "refused");
    }

    static size_t rows() { return VPINDEX_TABLE_ROWS(ORDER); }

    void add(uint64_t tag, const vpindex_profile &profile) {
        vpindex_added added = vpindex_add(table.get(), rows(), work.get(), VPINDEX_WORK_ROWS(ORDER), tag, profile, DAY);
        must(added.refusal == VPINDEX_ACCEPTED, "an add was refused");
    }

    void nearest(const vpindex_profile &query) {
        reply = vpindex_nearest(table.get(), rows(), result.get(), K, query, K, VPINDEX_ANY_DAY);
        must(reply.refusal == VPINDEX_ACCEPTED, "nearest was refused");
    }

    void range(const vpindex_profile &query, uint32_t radius) {
        reply = vpindex_range(table.get(), rows(), result.get(), room, query, radius, VPINDEX_ANY_DAY);
        must(reply.refusal == VPINDEX_ACCEPTED, "range was refused");
    }

    Hits hits() const {
        Hits all;
        for (uint32_t i = 0; i < reply.found; i++) all.emplace_back(uint32_t(result[i][1]), result[i][0]);
        return all;
    }
};

// ---- nanoflann, by the sum of differences --------------------------------------------------------------------------

// Sums of differences of measures are whole numbers below 2^23, so floats have them as they are.
using Point = std::array<float, 4>;

Point point_of(const vpindex_profile &profile) {
    const int32_t *m = profile.measures;
    return {float(m[0]), float(m[1]), float(m[2]), float(m[3])};
}

struct Cloud {
    std::vector<Point> points;

    size_t kdtree_get_point_count() const { return points.size(); }
    float kdtree_get_pt(size_t i, size_t dimension) const { return points[i][dimension]; }
    template <class Box> bool kdtree_get_bbox(Box &) const { return false; }
};

using L1 = nanoflann::L1_Adaptor<float, Cloud>;
using Tree = nanoflann::KDTreeSingleIndexAdaptor<L1, Cloud, 4>;
using Forest = nanoflann::KDTreeSingleIndexDynamicAdaptor<L1, Cloud, 4>;
using Pairs = std::vector<std::pair<uint32_t, float>>;

// One tree over all points, or the forest that takes points one by one.
template <class Trees> struct Nanoflann {
    Cloud cloud;
    std::unique_ptr<Trees> trees;
    uint32_t places[K];
    float distances[K];
    Pairs pairs;
    bool of_nearest = false;

    void nearest(const vpindex_profile &query) {
        Point point = point_of(query);
        nanoflann::KNNResultSet<float, uint32_t> kept(K);
        kept.init(places, distances);
        trees->findNeighbors(kept, point.data(), nanoflann::SearchParams());
        of_nearest = true;
    }

    // It takes what is nearer than the radius given.
    void range(const vpindex_profile &query, uint32_t radius) {
        Point point = point_of(query);
        nanoflann::RadiusResultSet<float, uint32_t> within(float(radius + 1), pairs);
        trees->findNeighbors(within, point.data(), nanoflann::SearchParams());
        std::sort(pairs.begin(), pairs.end(), nanoflann::IndexDist_Sorter());
        of_nearest = false;
    }

    Hits hits() const {
        Hits all;
        if (of_nearest)
            for (uint32_t i = 0; i < K; i++) all.emplace_back(uint32_t(distances[i]), tag_of(places[i]));
        else
            for (auto [place, distance] : pairs) all.emplace_back(uint32_t(distance), tag_of(place));
        return all;
    }
};

struct KdTree : Nanoflann<Tree> {
    explicit KdTree(const std::vector<vpindex_profile> &items) {
        for (const vpindex_profile &item : items) cloud.points.push_back(point_of(item));
        trees = std::make_unique<Tree>(4, cloud, nanoflann::KDTreeSingleIndexAdaptorParams());
    }
};

struct KdForest : Nanoflann<Forest> {
    KdForest() { trees = std::make_unique<Forest>(4, cloud, nanoflann::KDTreeSingleIndexAdaptorParams(), ITEMS); }

    void add(const vpindex_profile &profile) {
        uint32_t place = uint32_t(cloud.points.size());
        cloud.points.push_back(point_of(profile));
        trees->addPoints(place, place);
    }
};

// ---- faiss ---------------------------------------------------------------------------------------------------------

struct FaissFlat {
    faiss::IndexFlat index{4, faiss::METRIC_L1};
    float distances[K];
    int64_t places[K];

    void add(const vpindex_profile &profile) { index.add(1, point_of(profile).data()); }

    void nearest(const vpindex_profile &query) { index.search(1, point_of(query).data(), K, distances, places); }

    Hits hits() const {
        Hits all;
        for (uint32_t i = 0; i < K; i++) all.emplace_back(uint32_t(distances[i]), tag_of(size_t(places[i])));
        return all;
    }
};

struct FaissBinary {
    faiss::IndexBinaryFlat index{128};
    int32_t distances[K];
    int64_t places[K];
    std::unique_ptr<faiss::RangeSearchResult> within;

    static const uint8_t *bytes(const vpindex_profile &profile) {
        return reinterpret_cast<const uint8_t *>(profile.code);
    }

    void add(const vpindex_profile &profile) { index.add(1, bytes(profile)); }

    void nearest(const vpindex_profile &query) {
        within.reset();
        index.search(1, bytes(query), K, distances, places);
    }

    // It takes what is nearer than the radius given, in no order.
    void range(const vpindex_profile &query, uint32_t radius) {
        within = std::make_unique<faiss::RangeSearchResult>(1);
        index.range_search(1, bytes(query), int(radius + 1), within.get());
    }

    Hits hits() const {
        Hits all;
        if (!within)
            for (uint32_t i = 0; i < K; i++) all.emplace_back(uint32_t(distances[i]), tag_of(size_t(places[i])));
        else
            for (size_t i = 0; i < within->lims[1]; i++)
                all.emplace_back(uint32_t(within->distances[i]), tag_of(size_t(within->labels[i])));
        return all;
    }
};

// ---- Comparing and measuring ---------------------------------------------------------------------------------------

enum Column { OURS, SCAN, SCAN_POPCNT, KD_TREE, KD_FOREST, FAISS, COLUMNS };

struct Program {
    Column column;
    std::function<void(size_t)> ask;
    std::function<Hits()> hits;
};

using Times = std::map<Column, double>;

double median(std::vector<double> values) {
    std::sort(values.begin(), values.end());
    return values[values.size() / 2];
}

double nanoseconds(const std::function<void()> &run) {
    auto start = std::chrono::steady_clock::now();
    run();
    return std::chrono::duration<double, std::nano>(std::chrono::steady_clock::now() - start).count();
}

// Ours as they stand; another's in any order among equals: its distances, each that of its item, no item twice.
void compare(Column column, Hits given, const Hits &scanned, const std::function<uint32_t(uint64_t)> &distance_of) {
    if (column <= SCAN_POPCNT) return must(given == scanned, "a reply is not the scan's");
    must(given.size() == scanned.size(), "a peer found more or fewer than the scan");
    std::sort(given.begin(), given.end());
    std::unordered_set<uint64_t> tags;
    for (size_t i = 0; i < given.size(); i++) {
        auto [distance, tag] = given[i];
        must(distance == scanned[i].first, "a peer's distances are not the scan's");
        must(distance == distance_of(tag) && tags.insert(tag).second, "a peer's item is not at its distance");
    }
}

// The programs take turns within a round; of each the median over the rounds of a round's mean.
Times turns(std::vector<Program> &programs) {
    std::map<Column, std::vector<double>> rounds;
    for (size_t round = 0; round < ROUNDS; round++)
        for (Program &program : programs) {
            double time = nanoseconds([&] { for (size_t q = 0; q < QUERIES; q++) program.ask(q); });
            rounds[program.column].push_back(time / QUERIES);
        }
    Times times;
    for (auto &[column, means] : rounds) times[column] = median(means);
    return times;
}

template <class Index> double fill_time(const std::function<Index()> &empty, const std::function<void(Index &)> &fill) {
    std::vector<double> times;
    for (size_t i = 0; i < FILLS; i++) {
        Index index = empty();
        times.push_back(nanoseconds([&] { fill(index); }) / ITEMS);
    }
    return median(times);
}

// A herd in every index that takes this metric, and the lines measured on it.
template <class Metric> struct Herd {
    static constexpr bool MEASURES = std::is_same_v<Metric, Differences>;
    static constexpr uint32_t METRIC = MEASURES ? VPINDEX_SUM_OF_DIFFERENCES : VPINDEX_DIFFERING_BITS;
    using Faiss = std::conditional_t<MEASURES, FaissFlat, FaissBinary>;

    std::vector<vpindex_profile> items, queries;
    std::map<uint64_t, size_t> places;
    std::vector<uint32_t> radii;
    Scan scan, popcnt;
    Calls calls{METRIC};
    std::unique_ptr<KdTree> tree;
    KdForest forest;
    Faiss flat;

    Herd(uint64_t seed, Spread spread) : items(profiles(seed, spread, ITEMS + QUERIES)) {
        queries.assign(items.begin() + ITEMS, items.end());
        items.resize(ITEMS);
        for (size_t i = 0; i < ITEMS; i++) {
            places[tag_of(i)] = i;
            scan.add(tag_of(i), items[i]);
            calls.add(tag_of(i), items[i]);
            flat.add(items[i]);
            if (MEASURES) forest.add(items[i]);
        }
        popcnt.items = scan.items;
        if (MEASURES) tree = std::make_unique<KdTree>(items);
        for (const vpindex_profile &query : queries) {
            scan.nearest<Metric>(query);
            radii.push_back(scan.hits.back().first);
            scan.range<Metric>(query, radii.back());
            while (calls.room < scan.hits.size()) calls.room *= 2;
        }
    }

    Times measured(std::vector<Program> programs) {
        for (size_t q = 0; q < QUERIES; q++) {
            auto distance_of = [&](uint64_t tag) { return Metric::distance(items[places.at(tag)], queries[q]); };
            programs[0].ask(q);
            Hits scanned = programs[0].hits();
            for (Program &program : programs) {
                program.ask(q);
                compare(program.column, program.hits(), scanned, distance_of);
            }
        }
        return turns(programs);
    }

    Times nearest() {
        auto by_scan = [&](size_t q) { scan.nearest<Metric>(queries[q]); };
        auto ours = [&](size_t q) { calls.nearest(queries[q]); };
        auto by_flat = [&](size_t q) { flat.nearest(queries[q]); };
        std::vector<Program> programs{{SCAN, by_scan, [&] { return scan.hits; }},
                                      {OURS, ours, [&] { return calls.hits(); }},
                                      {FAISS, by_flat, [&] { return flat.hits(); }}};
        if constexpr (MEASURES) {
            auto by_tree = [&](size_t q) { tree->nearest(queries[q]); };
            auto by_forest = [&](size_t q) { forest.nearest(queries[q]); };
            programs.push_back({KD_TREE, by_tree, [&] { return tree->hits(); }});
            programs.push_back({KD_FOREST, by_forest, [&] { return forest.hits(); }});
        } else {
            auto by_popcnt = [&](size_t q) { popcnt.nearest_popcnt(queries[q]); };
            programs.push_back({SCAN_POPCNT, by_popcnt, [&] { return popcnt.hits; }});
        }
        return measured(programs);
    }

    // By the sum of differences faiss's flat index has no range search.
    Times range() {
        auto by_scan = [&](size_t q) { scan.range<Metric>(queries[q], radii[q]); };
        auto ours = [&](size_t q) { calls.range(queries[q], radii[q]); };
        std::vector<Program> programs{{SCAN, by_scan, [&] { return scan.hits; }},
                                      {OURS, ours, [&] { return calls.hits(); }}};
        if constexpr (MEASURES) {
            auto by_tree = [&](size_t q) { tree->range(queries[q], radii[q]); };
            auto by_forest = [&](size_t q) { forest.range(queries[q], radii[q]); };
            programs.push_back({KD_TREE, by_tree, [&] { return tree->hits(); }});
            programs.push_back({KD_FOREST, by_forest, [&] { return forest.hits(); }});
        } else {
            auto by_popcnt = [&](size_t q) { popcnt.range_popcnt(queries[q], radii[q]); };
            auto by_flat = [&](size_t q) { flat.range(queries[q], radii[q]); };
            programs.push_back({SCAN_POPCNT, by_popcnt, [&] { return popcnt.hits; }});
            programs.push_back({FAISS, by_flat, [&] { return flat.hits(); }});
        }
        return measured(programs);
    }

    // From empty to full. The scan's add puts the item behind the others.
    Times adds() {
        using Ours = std::unique_ptr<Calls>;
        using Trees = std::unique_ptr<KdForest>;
        Times times;
        times[OURS] = fill_time<Ours>([] { return std::make_unique<Calls>(METRIC); }, [&](Ours &into) {
            for (size_t i = 0; i < ITEMS; i++) into->add(tag_of(i), items[i]);
        });
        times[SCAN] = fill_time<Scan>([] { return Scan(); }, [&](Scan &into) {
            for (size_t i = 0; i < ITEMS; i++) into.add(tag_of(i), items[i]);
        });
        times[FAISS] = fill_time<Faiss>([] { return Faiss(); }, [&](Faiss &into) {
            for (const vpindex_profile &item : items) into.add(item);
        });
        if (MEASURES)
            times[KD_FOREST] = fill_time<Trees>([] { return std::make_unique<KdForest>(); }, [&](Trees &into) {
                for (const vpindex_profile &item : items) into->add(item);
            });
        return times;
    }
};

// ---- The table -----------------------------------------------------------------------------------------------------

// Two places, or of small numbers two figures.
std::string number(double value) {
    char text[32];
    std::snprintf(text, sizeof text, value < 0.1 ? "%.2g" : "%.2f", value);
    return text;
}

// Of each column the median over the seeds of its microseconds, and of its time by ours.
void print_line(const char *herd, uint32_t metric, const char *call, const std::vector<Times> &seeds) {
    std::printf("| %s | %u | %s |", herd, metric, call);
    for (int column = OURS; column < COLUMNS; column++) {
        std::vector<double> times, ratios;
        for (const Times &seed : seeds) {
            auto found = seed.find(Column(column));
            if (found == seed.end()) continue;
            times.push_back(found->second / 1000);
            ratios.push_back(found->second / seed.at(OURS));
        }
        if (times.empty())
            std::printf(" |");
        else if (column == OURS)
            std::printf(" %s |", number(median(times)).c_str());
        else
            std::printf(" %s (%s) |", number(median(times)).c_str(), number(median(ratios)).c_str());
    }
    std::printf("\n");
}

template <class Metric> void print_herd(Spread spread, const std::vector<uint64_t> &seeds) {
    std::vector<Times> nearest, range, adds;
    for (uint64_t seed : seeds) {
        auto herd = std::make_unique<Herd<Metric>>(seed, spread);
        nearest.push_back(herd->nearest());
        range.push_back(herd->range());
        adds.push_back(herd->adds());
    }
    uint32_t metric = Herd<Metric>::METRIC;
    print_line(spread.name, metric, "nearest 10", nearest);
    print_line(spread.name, metric, "range ~10", range);
    print_line(spread.name, metric, "add, from empty to full", adds);
    std::fflush(stdout);
}

} // namespace

int main(int count, char **words) {
    must(count > 1, "usage: peers SEED.., each a hexadecimal number");
    std::vector<uint64_t> seeds;
    for (int i = 1; i < count; i++) seeds.push_back(std::strtoull(words[i], nullptr, 16));
    omp_set_num_threads(1);
    std::printf("| herd | metric | call | ours µs | scan | scan, popcnt | kd-tree | kd-forest | faiss flat |\n");
    std::printf("|---|---|---|---|---|---|---|---|---|\n");
    for (Spread spread : SPREADS) {
        print_herd<Differences>(spread, seeds);
        print_herd<Bits>(spread, seeds);
    }
}
