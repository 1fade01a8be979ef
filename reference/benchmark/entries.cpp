// Measures the entries call for all bridges of tables, and beside it as many
// plain-cost trees by Boost Graph as the calls make trees. Both are measured in
// turn within each round; the median of the rounds is printed.
#include <cstdio>
#include <set>

#include "table.hpp"
#include "timing.hpp"

// crates/bench_calls
extern "C" std::uint32_t bench_entries(const std::uint8_t *table, std::size_t len, std::uint32_t bridge);

namespace {

constexpr int rounds = 31;

std::uint64_t sum; // Keeps the results in use.

// The roots of the trees that the entries of a bridge need: one tree for each
// different ECT index and bridge, of the bridge itself for every VID and of every
// transmitting member for its VID.
std::vector<std::size_t> roots_for(const Table &table, std::size_t bridge) {
    std::set<std::pair<std::uint32_t, std::size_t>> pairs;
    for (const auto &vid : table.indexes) {
        pairs.emplace(vid.second, bridge);
    }
    for (const Member &member : table.members) {
        if (member.transmits) {
            pairs.emplace(table.indexes.at(member.vid), member.bridge);
        }
    }
    std::vector<std::size_t> roots;
    for (const auto &pair : pairs) {
        roots.push_back(pair.second);
    }
    return roots;
}

void measure(const std::string &name, const Table &table) {
    const Graph graph = graph_of(table);
    Tree grown(table.bridges);
    std::vector<std::size_t> roots;
    for (std::size_t bridge = 0; bridge < table.bridges; bridge++) {
        const std::vector<std::size_t> more = roots_for(table, bridge);
        roots.insert(roots.end(), more.begin(), more.end());
    }
    std::vector<double> entries, boost;
    std::uint32_t longest = 0;
    for (int round = 0; round < rounds; round++) {
        boost.push_back(microseconds([&] {
            for (const std::size_t root : roots) {
                grown.grow(graph, root);
                sum += grown.costs[table.bridges - 1 - root];
            }
        }));
        entries.push_back(microseconds([&] {
            for (std::size_t bridge = 0; bridge < table.bridges; bridge++) {
                const std::uint32_t words = bench_entries(table.bytes.data(), table.bytes.size(), std::uint32_t(bridge));
                if (words <= 13) {
                    throw std::runtime_error("refused");
                }
                longest = std::max(longest, words);
                sum += words;
            }
        }));
    }
    std::printf("%-24s %8zu %8u %8zu %12.2f %12.2f %7.2f\n", name.c_str(), table.bridges, longest, roots.size(),
                median(boost) / 1000, median(entries) / 1000, median(entries) / median(boost));
}

} // namespace

int main(int count, char **files) {
    std::printf("%-24s %8s %8s %8s %12s %12s %7s\n", "shape", "bridges", "longest", "trees", "Boost ms", "entries ms", "ratio");
    for (int place = 1; place < count; place++) {
        std::ifstream input(files[place], std::ios::binary);
        measure(shape_of(files[place]), read_table(input));
    }
    std::fprintf(stderr, "sum of results %llu\n", static_cast<unsigned long long>(sum));
    return 0;
}
