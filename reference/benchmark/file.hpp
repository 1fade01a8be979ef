// A table file: its bytes, and the shape in its name.
#pragma once

#include <cstddef>
#include <cstdint>
#include <istream>
#include <iterator>
#include <string>
#include <vector>

inline std::vector<std::uint8_t> bytes_of(std::istream &input) {
    return {std::istreambuf_iterator<char>(input), std::istreambuf_iterator<char>()};
}

// The shape in the name of a file FOLDER/SHAPE-BRIDGES.table.
inline std::string shape_of(const std::string &file) {
    const std::size_t slash = file.find_last_of('/') + 1;
    return file.substr(slash, file.find_last_of('-') - slash);
}
