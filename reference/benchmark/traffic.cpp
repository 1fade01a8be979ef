// Measures exported check on tables without traffic records and on the same with them,
// files given in pairs. Both are measured in turn within each round; the medians of the
// rounds and their ratio are printed.
#include <cstdio>
#include <cstdlib>
#include <fstream>

#include "../../include/spb.h"
#include "file.hpp"
#include "timing.hpp"

namespace {

constexpr int rounds = 31;
constexpr int repeats = 1000;

std::uint64_t sum; // Keeps the results in use.

// A refused table would be measured up to its fault only.
std::vector<std::uint8_t> accepted_table(const char *file) {
    std::ifstream input(file, std::ios::binary);
    const std::vector<std::uint8_t> bytes = bytes_of(input);
    if (const std::uint32_t number = spb_check(bytes.data(), bytes.size())) {
        std::fprintf(stderr, "traffic: %s is refused with %u\n", file, unsigned(number));
        std::exit(1);
    }
    return bytes;
}

double time_check(const std::vector<std::uint8_t> &bytes) {
    const double time = microseconds([&] {
        for (int repeat = 0; repeat < repeats; repeat++) {
            sum += spb_check(bytes.data(), bytes.size());
        }
    });
    return time / repeats;
}

void measure(const char *without, const char *with) {
    const std::vector<std::uint8_t> fewer = accepted_table(without), more = accepted_table(with);
    std::vector<double> before, after;
    for (int round = 0; round < rounds; round++) {
        before.push_back(time_check(fewer));
        after.push_back(time_check(more));
    }
    const double was = median(before), now = median(after);
    std::printf("%-24s %10.2f %10.2f %7.2f\n", shape_of(without).c_str(), was, now, now / was);
}

} // namespace

int main(int count, char **files) {
    std::printf("%-24s %10s %10s %7s\n", "shape", "without us", "with us", "ratio");
    for (int place = 1; place + 1 < count; place += 2) {
        measure(files[place], files[place + 1]);
    }
    std::fprintf(stderr, "sum of results %llu\n", static_cast<unsigned long long>(sum));
    return 0;
}
