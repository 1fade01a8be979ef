// Time taken by a call, and the median of many.
#pragma once

#include <algorithm>
#include <chrono>
#include <functional>
#include <vector>

inline double microseconds(const std::function<void()> &call) {
    const auto start = std::chrono::steady_clock::now();
    call();
    const std::chrono::duration<double, std::micro> time = std::chrono::steady_clock::now() - start;
    return time.count();
}

inline double median(std::vector<double> times) {
    std::sort(times.begin(), times.end());
    return times[times.size() / 2];
}
