// The yardstick of the listing: one plain-cost tree by Boost Graph for each VID
// and bridge, and a line for each two bridges: VID, from, to, cost, hops, bridges.
#include <iostream>

#include "table.hpp"

namespace {

void print_line(const Tree &tree, std::uint32_t vid, std::size_t from, std::size_t to) {
    std::vector<std::size_t> bridges{to};
    while (bridges.back() != from) {
        bridges.push_back(tree.before[bridges.back()]);
    }
    std::cout << "path " << vid << ' ' << from << ' ' << to << ' ' << tree.costs[to] << ' ' << bridges.size() - 1;
    for (auto bridge = bridges.rbegin(); bridge != bridges.rend(); ++bridge) {
        std::cout << ' ' << *bridge;
    }
    std::cout << '\n';
}

} // namespace

int main() {
    std::ios::sync_with_stdio(false);
    const Table table = read_table(std::cin);
    const Graph graph = graph_of(table);
    Tree tree(table.bridges);
    for (const std::uint32_t vid : table.vids) {
        for (std::size_t from = 0; from < table.bridges; from++) {
            tree.grow(graph, from);
            for (std::size_t to = 0; to < table.bridges; to++) {
                if (to != from) {
                    print_line(tree, vid, from, to);
                }
            }
        }
    }
    return 0;
}
