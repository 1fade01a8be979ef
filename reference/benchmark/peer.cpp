// Compares the library's costs with those of Boost Graph's search, for every VID
// and every two bridges of the table files given. The first difference ends it.
#include <cstdio>
#include <limits>

#include "../../include/spb.h"
#include "table.hpp"

namespace {

std::uint64_t expected(std::uint32_t cost) {
    return cost == std::numeric_limits<std::uint32_t>::max() ? SPB_REFUSED + 12 : cost;
}

// How many costs were compared; 0 where one differs.
std::size_t compare(const char *file, const Table &table) {
    const Graph graph = graph_of(table);
    Tree tree(table.bridges);
    std::size_t compared = 0;
    for (std::size_t from = 0; from < table.bridges; from++) {
        tree.grow(graph, from);
        for (std::size_t to = 0; to < table.bridges; to++) {
            for (const std::uint32_t vid : table.vids) {
                const std::uint64_t cost =
                    spb_path_cost(table.bytes.data(), table.bytes.size(), vid, std::uint32_t(from), std::uint32_t(to));
                if (cost != expected(tree.costs[to])) {
                    std::printf("compare-peer: %s, VID %u from %zu to %zu: the library gives %llu, Boost %llu\n", file, vid, from, to,
                                static_cast<unsigned long long>(cost), static_cast<unsigned long long>(expected(tree.costs[to])));
                    return 0;
                }
                compared++;
            }
        }
    }
    return compared;
}

} // namespace

int main(int count, char **files) {
    std::size_t compared = 0;
    for (int place = 1; place < count; place++) {
        std::ifstream input(files[place], std::ios::binary);
        const std::size_t more = compare(files[place], read_table(input));
        if (more == 0) {
            return 1;
        }
        compared += more;
    }
    std::printf("compare-peer: all %zu costs of %d tables are Boost's\n", compared, count - 1);
    return compared == 0;
}
