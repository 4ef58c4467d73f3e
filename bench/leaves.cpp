// Times the leaves in one run on one machine, and prints ratios: the table against std::stable_sort of the same pairs, the root against the C
// library's, the degeneracy test against the same steps with that root, the labels against a plain union-find. Every answer is compared with the
// other side's; a difference is said and fails the run.
#include <algorithm>
#include <cmath>
#include <cstdint>
#include <cstdio>
#include <cstring>
#include <ctime>
#include <numeric>
#include <random>
#include <vector>

extern "C" {
double bench_root(double x);
uint32_t bench_shape(const double *points, size_t points_len, double s, uint32_t a, uint32_t b, uint32_t c);
size_t bench_table(uint32_t *work, size_t work_len, const uint32_t *faces, size_t faces_len, size_t points, bool directed, size_t at);
size_t bench_flood(uint32_t *work, size_t work_len, size_t things, size_t runs, size_t starts, size_t order, size_t labels);
}

typedef std::vector<uint32_t> Row;
static int differences = 0;

// Processor time, so that other work on the machine counts little.
static double now() {
    timespec t;
    clock_gettime(CLOCK_PROCESS_CPUTIME_ID, &t);
    return t.tv_sec + t.tv_nsec * 1e-9;
}

// The best of five runs of f, in seconds; what prepares a run is not timed.
template <class F, class G> static double best_of_five(F f, G prepare) {
    double best = 1e9;
    for (int run = 0; run < 5; run++) {
        prepare();
        double begin = now();
        f();
        best = std::min(best, now() - begin);
    }
    return best;
}

template <class F> static double best_of_five(F f) {
    return best_of_five(f, [] {});
}

static void expect(bool ok, const char *what) {
    if (!ok) {
        differences++;
        printf("DIFFERS: %s\n", what);
    }
}

// The table of 3F entries against std::stable_sort of the entries by the same pairs of keys.
static void table(const char *name, const Row &faces, size_t points, bool directed) {
    size_t n = faces.size(), at = 7, room = at + 5 * n + 1 + points + 5;
    Row work(room), order(n), low(n), high(n);
    size_t runs = 0;
    double own = best_of_five([&] { runs = bench_table(work.data(), room, faces.data(), n, points, directed, at); },
                              [&] { std::fill(work.begin(), work.end(), 0xdeadbeefu); });
    for (size_t i = 0; i < n; i++) {
        uint32_t x = faces[i], y = faces[i % 3 == 2 ? i - 2 : i + 1];
        low[i] = directed ? x : std::min(x, y);
        high[i] = directed ? y : std::max(x, y);
    }
    double sorting = best_of_five(
        [&] { std::stable_sort(order.begin(), order.end(), [&](uint32_t i, uint32_t j) { return low[i] != low[j] ? low[i] < low[j] : high[i] < high[j]; }); },
        [&] { std::iota(order.begin(), order.end(), 0); });
    expect(std::equal(order.begin(), order.end(), work.begin() + at + 3 * n), name);
    size_t k = 0;
    bool same = true;
    for (size_t i = 0; i < n; i++) {
        if (i == 0 || low[order[i]] != low[order[i - 1]] || high[order[i]] != high[order[i - 1]]) {
            same = same && work[at + 4 * n + k] == i;
            k++;
        }
        same = same && work[at + 2 * n + order[i]] == k - 1;
    }
    expect(same && k == runs && work[at + 4 * n + k] == n && work[0] == 0xdeadbeefu && work[room - 1] == 0xdeadbeefu, name);
    printf("table  %-28s %9zu entries %-10s %7.1f ms, std::stable_sort %7.1f ms, ratio %.2f\n", name, n, directed ? "directed" : "undirected", own * 1e3,
           sorting * 1e3, own / sorting);
}

// A grid of about a million faces, in order or shuffled.
static Row grid(size_t side, bool shuffled, std::mt19937 &random) {
    std::vector<uint32_t> places((side - 1) * (side - 1) * 2);
    std::iota(places.begin(), places.end(), 0);
    if (shuffled)
        std::shuffle(places.begin(), places.end(), random);
    Row faces;
    for (uint32_t place : places) {
        uint32_t cell = place / 2, p = cell / (side - 1) * side + cell % (side - 1);
        if (place % 2 == 0)
            faces.insert(faces.end(), {p, p + 1, p + (uint32_t)side});
        else
            faces.insert(faces.end(), {p + 1, p + 1 + (uint32_t)side, p + (uint32_t)side});
    }
    return faces;
}

static void root(const char *name, const std::vector<double> &values) {
    std::vector<double> mine(values.size()), theirs(values.size());
    double own = best_of_five([&] { for (size_t i = 0; i < values.size(); i++) mine[i] = bench_root(values[i]); });
    double other = best_of_five([&] { for (size_t i = 0; i < values.size(); i++) { volatile double x = values[i]; theirs[i] = std::sqrt(x); } });
    expect(std::memcmp(mine.data(), theirs.data(), mine.size() * sizeof(double)) == 0, name);
    printf("root   %-28s %9zu values             %7.1f ns, the C library's %5.1f ns, ratio %.1f\n", name, values.size(), own / values.size() * 1e9,
           other / values.size() * 1e9, own / other);
}

// The degeneracy test by the C library's root: 0 good, 1 repeated, 2 thin.
static uint32_t by_root(const double *p, double s, uint32_t a, uint32_t b, uint32_t c) {
    if (a == b || b == c || c == a)
        return 1;
    double e[3], f[3];
    for (int k = 0; k < 3; k++) {
        e[k] = p[3 * b + k] - p[3 * a + k];
        f[k] = p[3 * c + k] - p[3 * a + k];
    }
    double x[3] = {e[1] * f[2] - e[2] * f[1], e[2] * f[0] - e[0] * f[2], e[0] * f[1] - e[1] * f[0]};
    auto norm = [](const double *v) { return std::sqrt(v[0] * v[0] + v[1] * v[1] + v[2] * v[2]); };
    return norm(x) <= s * norm(e) * norm(f) ? 2 : 0;
}

// What each face is at the threshold s.
static void shape(const char *name, double s, const std::vector<double> &points, const Row &faces) {
    size_t n = faces.size() / 3;
    Row mine(n), theirs(n);
    const double *p = points.data();
    const uint32_t *f = faces.data();
    double own = best_of_five([&] { for (size_t i = 0; i < n; i++) mine[i] = bench_shape(p, points.size(), s, f[3 * i], f[3 * i + 1], f[3 * i + 2]); });
    double other = best_of_five([&] { for (size_t i = 0; i < n; i++) theirs[i] = by_root(p, s, f[3 * i], f[3 * i + 1], f[3 * i + 2]); });
    expect(mine == theirs, name);
    printf("shape  %-28s %9zu faces              %7.1f ns, with the C library's root %5.1f ns, ratio %.1f\n", name, n, own / n * 1e9, other / n * 1e9,
           own / other);
}

// Labels of things joined through runs against a union-find of the same shape in C++. runs[r] lists the things of run r.
static void flood(const char *name, size_t things, const std::vector<Row> &members) {
    size_t runs = members.size(), entries = 0;
    for (const Row &run : members)
        entries += run.size();
    size_t starts = 3, order = starts + runs + 1, labels = order + entries, room = labels + things + 2;
    Row work(room, 0xdeadbeefu), label(things), parent(things);
    size_t at = 0;
    for (size_t r = 0; r < runs; r++) {
        work[starts + r] = at;
        for (uint32_t thing : members[r])
            work[order + at++] = thing;
    }
    work[starts + runs] = at;
    Row before = work;
    size_t groups = 0, count = 0;
    double own = best_of_five([&] { groups = bench_flood(work.data(), room, things, runs, starts, order, labels); });
    double other = best_of_five([&] {
        std::iota(parent.begin(), parent.end(), 0);
        auto find = [&](uint32_t x) {
            while (parent[x] != x)
                x = parent[x] = parent[parent[x]];
            return x;
        };
        for (size_t r = 0; r < runs; r++)
            for (size_t k = before[starts + r] + 1; k < before[starts + r + 1]; k++) {
                uint32_t x = find(before[order + k - 1]), y = find(before[order + k]);
                parent[std::max(x, y)] = std::min(x, y);
            }
        count = 0;
        for (size_t i = 0; i < things; i++) {
            uint32_t x = find(i);
            label[i] = x == i ? count++ : label[x];
        }
    });
    std::copy(label.begin(), label.end(), before.begin() + labels);
    expect(groups == count && work == before, name);
    printf("flood  %-28s %9zu entries            %7.1f ms, union-find in C++ %6.1f ms, ratio %.2f\n", name, entries, own * 1e3, other * 1e3, own / other);
}

int main() {
    std::mt19937 random(1);
    const size_t side = 708, points = side * side, million = 1000000;
    Row plain = grid(side, false, random), shuffled = grid(side, true, random), scattered(3 * million), crowded(3 * million);
    table("grid", plain, points, false);
    table("grid", plain, points, true);
    table("grid, faces shuffled", shuffled, points, false);
    for (uint32_t &x : scattered)
        x = random() % points;
    table("scattered corners", scattered, points, false);
    for (size_t i = 0; i < crowded.size(); i++)
        crowded[i] = i % 3 == 0 ? 0 : i % 3 == 1 ? 1 : 2 + random() % (points - 2);
    table("every face on one edge", crowded, points, false);

    std::vector<double> unit(million), spread(million);
    for (double &x : unit)
        x = (random() + 1.0) / 4294967296.0;
    for (double &x : spread) {
        uint64_t bits = ((uint64_t)random() << 32 | random()) % 0x7ff0000000000000u;
        std::memcpy(&x, &bits, 8);
    }
    root("between 0 and 1", unit);
    root("any finite", spread);

    std::vector<double> rough(3 * points);
    for (size_t i = 0; i < rough.size(); i++)
        rough[i] = (i % 3 == 0 ? i / 3 % side : i % 3 == 1 ? i / 3 / side : 0) + unit[i % million];
    shape("grid, rough, s 1e-12", 1e-12, rough, plain);
    shape("grid, rough, s 0.3", 0.3, rough, plain);
    Row repeating = plain;
    for (size_t i = 0; i < repeating.size(); i += 9)
        repeating[i + random() % 3] = repeating[i + random() % 3];
    shape("a third may repeat, s 0.3", 0.3, rough, repeating);

    std::vector<Row> one(1, Row(million)), chain(million), mixed(million);
    std::iota(one[0].begin(), one[0].end(), 0);
    flood("one run of a million", million, one);
    for (size_t r = 0; r < million; r++)
        chain[r] = {(uint32_t)r, (uint32_t)r + 1};
    flood("a chain of a million runs", million + 1, chain);
    std::shuffle(chain.begin(), chain.end(), random);
    flood("the chain, shuffled", million + 1, chain);
    for (Row &run : mixed)
        run = {(uint32_t)(random() % (3 * million)), (uint32_t)(random() % (3 * million)), (uint32_t)(random() % (3 * million))};
    flood("random runs of three", 3 * million, mixed);

    printf("%d differences\n", differences);
    return differences != 0;
}
