// What the yardsticks read of a table that is known to be valid: the number of
// bridges, the VIDs with their ECT indexes, the members, and for each joined pair
// the cost of its hop; traffic records are passed over. Written for the measurements
// alone; nothing is checked here.
#pragma once

#include <algorithm>
#include <cstdint>
#include <fstream>
#include <map>
#include <stdexcept>
#include <string>
#include <utility>
#include <vector>

#include <boost/graph/compressed_sparse_row_graph.hpp>
#include <boost/graph/dijkstra_shortest_paths.hpp>

#include "file.hpp"

struct Hop {
    std::uint32_t cost;
};

using Graph = boost::compressed_sparse_row_graph<boost::directedS, boost::no_property, Hop>;

struct Member {
    bool transmits;
    std::size_t bridge;
    std::uint32_t vid;
};

struct Table {
    std::vector<std::uint8_t> bytes;
    std::size_t bridges = 0;
    std::vector<std::uint32_t> vids;
    std::map<std::uint32_t, std::uint32_t> indexes; // by VID
    std::vector<Member> members;
    std::map<std::pair<std::size_t, std::size_t>, std::uint32_t> hops;
};

inline std::uint32_t word_at(const std::vector<std::uint8_t> &bytes, std::size_t word) {
    const std::uint8_t *four = &bytes.at(4 * word);
    return std::uint32_t(four[0]) << 24 | std::uint32_t(four[1]) << 16 | std::uint32_t(four[2]) << 8 | four[3];
}

// A pair's cost is that of its cheapest link; the measured tables have equal
// metrics at both ends and no half-link alone.
inline void read_half_link(Table &table, std::size_t word) {
    const std::uint32_t metric = word_at(table.bytes, word) & 0xFFFFFF;
    const std::uint32_t ends = word_at(table.bytes, word + 1);
    const auto place = table.hops.emplace(std::make_pair(ends >> 16, ends & 0xFFFF), metric).first;
    place->second = std::min(place->second, metric);
}

inline void read_vid(Table &table, std::size_t word) {
    const std::uint32_t first = word_at(table.bytes, word);
    table.vids.push_back(first >> 16 & 0xFFF);
    table.indexes.emplace(first >> 16 & 0xFFF, first & 0xFFFF);
}

inline void read_member(Table &table, std::size_t word) {
    const std::uint32_t second = word_at(table.bytes, word + 1);
    const bool transmits = word_at(table.bytes, word) >> 25 & 1;
    table.members.push_back({transmits, second >> 16, second & 0xFFFF});
}

inline Table read_table(std::istream &input) {
    Table table;
    table.bytes = bytes_of(input);
    static const std::size_t words[] = {0, 3, 3, 1, 2, 2};
    for (std::size_t word = 0;;) {
        const std::uint32_t first = word_at(table.bytes, word);
        const std::uint32_t kind = first >> 28;
        if (kind == 15) {
            return table;
        }
        if (kind == 0 || kind > 5) {
            throw std::runtime_error("unknown kind");
        }
        if (kind == 1) {
            table.bridges++;
        } else if (kind == 2) {
            read_half_link(table, word);
        } else if (kind == 3) {
            read_vid(table, word);
        } else if (kind == 4) {
            read_member(table, word);
        }
        word += words[kind];
    }
}

inline Graph graph_of(const Table &table) {
    std::vector<std::pair<std::size_t, std::size_t>> pairs;
    std::vector<Hop> hops;
    for (const auto &hop : table.hops) {
        pairs.push_back(hop.first);
        hops.push_back({hop.second});
    }
    return Graph(boost::edges_are_sorted, pairs.begin(), pairs.end(), hops.begin(), table.bridges);
}

// One tree of least cost from a bridge, with no breaking of ties.
struct Tree {
    std::vector<std::uint32_t> costs;
    std::vector<std::size_t> before;

    explicit Tree(std::size_t bridges) : costs(bridges), before(bridges) {}

    void grow(const Graph &graph, std::size_t root) {
        const auto index = boost::get(boost::vertex_index, graph);
        boost::dijkstra_shortest_paths(
            graph, root,
            boost::weight_map(boost::get(&Hop::cost, graph))
                .distance_map(boost::make_iterator_property_map(costs.begin(), index))
                .predecessor_map(boost::make_iterator_property_map(before.begin(), index)));
    }
};
