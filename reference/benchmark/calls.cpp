// Measures Boost Graph's plain-cost tree on the networks of tables, and beside it
// the library: exported check, the path call, the tree call, and one tree over
// lists that are made already. All are measured in turn within each round; the
// median of the rounds is printed.
#include <cstdio>

#include "../../include/spb.h"
#include "table.hpp"
#include "timing.hpp"

// crates/bench_calls
extern "C" std::uint32_t bench_path(const std::uint8_t *table, std::size_t len, std::uint32_t vid, std::uint32_t from,
                                       std::uint32_t to);
extern "C" std::uint32_t bench_tree(const std::uint8_t *table, std::size_t len, std::uint32_t vid, std::uint32_t from);
extern "C" std::uint32_t bench_trees(const std::uint8_t *table, std::size_t len, std::uint32_t count);

namespace {

constexpr int rounds = 31;
constexpr int repeats = 20;

std::uint64_t sum; // Keeps the results in use.

// Microseconds for one call, over a call for each bridge, repeated.
double time_calls(std::size_t bridges, const std::function<void(std::size_t)> &call) {
    const double time = microseconds([&] {
        for (int repeat = 0; repeat < repeats; repeat++) {
            for (std::size_t bridge = 0; bridge < bridges; bridge++) {
                call(bridge);
            }
        }
    });
    return time / double(repeats * bridges);
}

// Microseconds for each of the calls, in the order of `columns`.
struct Times {
    double boost, check, path, tree, inner;
};

// One tree over lists that are made already: the trees of all bridges without
// the check and the lists, which a call for no tree makes too.
double time_inner_tree(const std::uint8_t *bytes, std::size_t length, std::size_t bridges) {
    const double all = time_calls(1, [=](std::size_t) { sum += bench_trees(bytes, length, std::uint32_t(bridges)); });
    const double none = time_calls(1, [=](std::size_t) { sum += bench_trees(bytes, length, 0); });
    return (all - none) / double(bridges);
}

Times time_round(const Table &table, const Graph &graph, Tree &grown) {
    const std::uint8_t *bytes = table.bytes.data();
    const std::size_t length = table.bytes.size();
    const std::uint32_t vid = table.vids.at(0);
    const std::uint32_t last = std::uint32_t(table.bridges - 1);
    Times times;
    times.boost = time_calls(table.bridges, [&](std::size_t root) {
        grown.grow(graph, root);
        sum += grown.costs[table.bridges - 1 - root];
    });
    times.check = time_calls(table.bridges, [=](std::size_t) { sum += spb_check(bytes, length); });
    times.path = time_calls(table.bridges, [=](std::size_t from) {
        sum += bench_path(bytes, length, vid, std::uint32_t(from), last - std::uint32_t(from));
    });
    times.tree = time_calls(table.bridges, [=](std::size_t from) { sum += bench_tree(bytes, length, vid, std::uint32_t(from)); });
    times.inner = time_inner_tree(bytes, length, table.bridges);
    return times;
}

void measure(const std::string &name, const Table &table) {
    const Graph graph = graph_of(table);
    Tree grown(table.bridges);
    std::vector<Times> all;
    for (int round = 0; round < rounds; round++) {
        all.push_back(time_round(table, graph, grown));
    }
    const auto median_of = [&](double Times::*column) {
        std::vector<double> times;
        for (const Times &one : all) {
            times.push_back(one.*column);
        }
        return median(times);
    };
    const double boost = median_of(&Times::boost);
    std::printf("%-24s %8zu %10zu %10.2f", name.c_str(), table.bridges, table.hops.size() / 2, boost);
    for (double Times::*column : {&Times::inner, &Times::check, &Times::path, &Times::tree}) {
        std::printf(" %10.2f %7.2f", median_of(column), median_of(column) / boost);
    }
    std::printf("\n");
}

} // namespace

int main(int count, char **files) {
    std::printf("%-24s %8s %10s %10s", "shape", "bridges", "joined", "Boost us");
    for (const char *column : {"inner tree", "check us", "path us", "tree us"}) {
        std::printf(" %10s %7s", column, "ratio");
    }
    std::printf("\n");
    for (int place = 1; place < count; place++) {
        std::ifstream input(files[place], std::ios::binary);
        measure(shape_of(files[place]), read_table(input));
    }
    std::fprintf(stderr, "sum of results %llu\n", static_cast<unsigned long long>(sum));
    return 0;
}
