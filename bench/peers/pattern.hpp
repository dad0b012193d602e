// The pattern of a sparse matrix, both triangles, without the diagonal.
#pragma once

#include "text.hpp"

// The neighbours of column j, from 0, are rows[starts[j]] to rows[starts[j + 1]], rising.
struct Pattern {
    std::vector<int> starts, rows;

    int columns() const { return static_cast<int>(starts.size()) - 1; }
};

// Reads a file in the coordinate format of Matrix Market; entries of one place count once.
Pattern read_pattern(const char *name);
