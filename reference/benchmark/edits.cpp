// Measures a change of metric and a withdrawal against one tree call and one check of the
// same table, all in turn within each round. The metric of the last half-link is changed,
// which is found last, and the first half-link is withdrawn, behind which all others move;
// before each call the table is copied, and the copy alone is measured too. Medians of the
// rounds and ratios to tree call and check are printed.
#include <cstdio>
#include <cstdlib>
#include <cstring>
#include <fstream>

#include "../../include/spb.h"
#include "file.hpp"
#include "timing.hpp"

extern "C" std::uint32_t bench_tree(const std::uint8_t *table, std::size_t len, std::uint32_t vid, std::uint32_t from);
extern "C" std::uint32_t bench_change(std::uint8_t *table, std::size_t len, std::uint32_t length, std::uint32_t vid, std::uint32_t near,
                                      std::uint32_t port, std::uint32_t metric);
extern "C" std::uint32_t bench_withdraw(std::uint8_t *table, std::size_t len, std::uint32_t length, std::uint32_t vid, std::uint32_t near,
                                        std::uint32_t port);

namespace {

constexpr int rounds = 31;
constexpr int repeats = 200;
constexpr std::uint32_t metric = 7;

std::uint64_t sum; // Keeps the results in use.

std::uint32_t word_at(const std::vector<std::uint8_t> &bytes, std::size_t word) {
    std::uint32_t value = 0;
    for (std::size_t place = 4 * word; place < 4 * word + 4; place++) {
        value = value << 8 | bytes[place];
    }
    return value;
}

// The first word of the first and of the last half-link, and the first VID.
struct Places {
    std::size_t first = 0, last = 0;
    std::uint32_t vid = 0;
};

Places places_of(const std::vector<std::uint8_t> &bytes) {
    Places places;
    for (std::size_t word = 0; 4 * word < bytes.size();) {
        const std::uint32_t head = word_at(bytes, word), kind = head >> 28;
        if (kind == 2) {
            places.last = word;
            if (places.first == 0) places.first = word;
        }
        if (kind == 3 && places.vid == 0) places.vid = head >> 16 & 0xfff;
        word += kind <= 2 ? 3 : kind == 4 || kind == 5 ? 2 : 1;
    }
    return places;
}

double each(const std::function<void()> &call) {
    return microseconds([&] { for (int repeat = 0; repeat < repeats; repeat++) call(); }) / repeats;
}

void measure(const char *file) {
    std::ifstream input(file, std::ios::binary);
    const std::vector<std::uint8_t> bytes = bytes_of(input);
    std::vector<std::uint8_t> lent(bytes);
    const Places places = places_of(bytes);
    const std::uint32_t length = std::uint32_t(bytes.size()), vid = places.vid;
    const std::uint32_t last_near = word_at(bytes, places.last + 1) >> 16, last_port = word_at(bytes, places.last + 2) >> 16;
    const std::uint32_t first_near = word_at(bytes, places.first + 1) >> 16, first_port = word_at(bytes, places.first + 2) >> 16;
    const auto copy = [&] { std::memcpy(lent.data(), bytes.data(), bytes.size()); };
    copy();
    const std::uint32_t changed = bench_change(lent.data(), lent.size(), length, vid, last_near, last_port, metric);
    copy();
    const std::uint32_t withdrawn = bench_withdraw(lent.data(), lent.size(), length, vid, first_near, first_port);
    if (changed != length || withdrawn != length - 12) {
        std::fprintf(stderr, "edits: %s is refused with %u or %u\n", file, unsigned(changed), unsigned(withdrawn));
        std::exit(1);
    }
    std::vector<double> trees, checks, changes, withdrawals, copies;
    for (int round = 0; round < rounds; round++) {
        trees.push_back(each([&] { sum += bench_tree(bytes.data(), bytes.size(), vid, 0); }));
        checks.push_back(each([&] { sum += spb_check(bytes.data(), bytes.size()); }));
        changes.push_back(each([&] { copy(); sum += bench_change(lent.data(), lent.size(), length, vid, last_near, last_port, metric); }));
        withdrawals.push_back(each([&] { copy(); sum += bench_withdraw(lent.data(), lent.size(), length, vid, first_near, first_port); }));
        copies.push_back(each([&] { copy(); sum += lent[sum % lent.size()]; }));
    }
    const double both = median(trees) + median(checks), change = median(changes), withdrawal = median(withdrawals);
    std::printf("%-24s %8.2f %8.2f %8.2f %8.2f %8.2f %7.2f %7.2f\n", shape_of(file).c_str(), median(trees), median(checks), median(copies), change,
                withdrawal, change / both, withdrawal / both);
}

} // namespace

int main(int count, char **files) {
    std::printf("%-24s %8s %8s %8s %8s %8s %7s %7s\n", "shape", "tree", "check", "copy", "change", "withdraw", "ratio", "ratio");
    for (int place = 1; place < count; place++) {
        measure(files[place]);
    }
    std::fprintf(stderr, "sum of results %llu\n", static_cast<unsigned long long>(sum));
    return 0;
}
