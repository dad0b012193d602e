// The analysis of a sparse matrix by the packages that solvers use: SuiteSparse's AMD, CXSparse and
// CHOLMOD. What they do not print, fundamental supernodes as a tree file, is made of their results
// in one pass, so that it can be compared with memplan's to the byte.
//
// usage: analysis amd MATRIX                               AMD's order, as a permutation file
//        analysis tree cxsparse|cholmod natural|amd MATRIX
//        analysis tree cxsparse|cholmod PERM_FILE MATRIX   the tree of fronts
//        analysis read MATRIX                              reads it, and counts its pairs
//        analysis times MATRIX                             processor time of each call alone
//
// Elimination tree, postorder and column counts are the packages'; sizes are those of a triangle.

#include <amd.h>
#include <cholmod.h>
#include <cs.h>

#include <algorithm>
#include <cstring>
#include <ctime>

#include "pattern.hpp"

namespace {

using Ints = std::vector<int>;

// For each column of an order of elimination: its parent, or -1; its count with the diagonal; and
// the columns in the postorder of the tree.
struct Analysis {
    Ints parents, post, counts;
};

Ints amd_of(const Pattern &pattern) {
    Ints order(pattern.columns());
    if (amd_order(pattern.columns(), pattern.starts.data(), pattern.rows.data(), order.data(),
                  nullptr, nullptr) < AMD_OK) {
        fail("AMD");
    }
    return order;
}

Ints read_order(const char *name, int columns) {
    Text text(name);
    Ints order(columns);
    for (int &column : order) column = static_cast<int>(text.number()) - 1;
    return order;
}

// The pattern with its columns in an order of elimination, each row list rising.
Pattern permuted(const Pattern &pattern, const Ints &order) {
    const int columns = pattern.columns();
    Ints place(columns);
    for (int at = 0; at < columns; at++) place[order[at]] = at;
    Pattern found{{0}, {}};
    found.rows.reserve(pattern.rows.size());
    for (const int old : order) {
        const auto first = found.rows.size();
        for (int at = pattern.starts[old]; at < pattern.starts[old + 1]; at++) {
            found.rows.push_back(place[pattern.rows[at]]);
        }
        std::sort(found.rows.begin() + static_cast<std::ptrdiff_t>(first), found.rows.end());
        found.starts.push_back(static_cast<int>(found.rows.size()));
    }
    return found;
}

// One triangle, with the diagonal: of each column the rows up to it, or from it on.
Pattern triangle(const Pattern &pattern, bool is_upper) {
    Pattern found{{0}, {}};
    for (int j = 0; j < pattern.columns(); j++) {
        const auto first = pattern.rows.begin() + pattern.starts[j];
        const auto last = pattern.rows.begin() + pattern.starts[j + 1];
        const auto middle = std::lower_bound(first, last, j);
        if (is_upper) found.rows.insert(found.rows.end(), first, middle);
        found.rows.push_back(j);
        if (!is_upper) found.rows.insert(found.rows.end(), middle, last);
        found.starts.push_back(static_cast<int>(found.rows.size()));
    }
    return found;
}

Ints taken(int *list, int count) {
    if (!list) fail("CXSparse ran out of memory");
    Ints found(list, list + count);
    cs_di_free(list);
    return found;
}

Analysis by_cxsparse(const Pattern &pattern) {
    Pattern upper = triangle(pattern, true);
    const int n = upper.columns();
    cs_di matrix{static_cast<int>(upper.rows.size()),
                 n,
                 n,
                 upper.starts.data(),
                 upper.rows.data(),
                 nullptr,
                 -1};
    Ints parents = taken(cs_di_etree(&matrix, 0), n);
    Ints post = taken(cs_di_post(parents.data(), n), n);
    Ints counts = taken(cs_di_counts(&matrix, parents.data(), post.data(), 0), n);
    return {std::move(parents), std::move(post), std::move(counts)};
}

cholmod_sparse view(Pattern &half, int stype) {
    cholmod_sparse matrix{};
    matrix.nrow = matrix.ncol = static_cast<std::size_t>(half.columns());
    matrix.nzmax = half.rows.size();
    matrix.p = half.starts.data();
    matrix.i = half.rows.data();
    matrix.stype = stype;
    matrix.itype = CHOLMOD_INT;
    matrix.xtype = CHOLMOD_PATTERN;
    matrix.dtype = CHOLMOD_DOUBLE;
    matrix.sorted = matrix.packed = 1;
    return matrix;
}

Analysis by_cholmod(const Pattern &pattern) {
    Pattern upper = triangle(pattern, true), lower = triangle(pattern, false);
    cholmod_sparse above = view(upper, 1), below = view(lower, -1);
    const int n = upper.columns();
    cholmod_common common;
    cholmod_start(&common);
    Analysis found{Ints(n), Ints(n), Ints(n)};
    Ints first(n), level(n);
    if (!cholmod_etree(&above, found.parents.data(), &common) ||
        cholmod_postorder(found.parents.data(), n, nullptr, found.post.data(), &common) != n ||
        !cholmod_rowcolcounts(&below, nullptr, 0, found.parents.data(), found.post.data(), nullptr,
                              found.counts.data(), first.data(), level.data(), &common)) {
        fail("CHOLMOD");
    }
    cholmod_finish(&common);
    return found;
}

// The analysis with its columns numbered along the postorder.
Analysis renumbered(const Analysis &old) {
    const int n = static_cast<int>(old.post.size());
    Analysis found{Ints(n), Ints(n), Ints(n)};
    Ints place(n);
    for (int at = 0; at < n; at++) place[old.post[at]] = at;
    for (int at = 0; at < n; at++) {
        const int parent = old.parents[old.post[at]];
        found.parents[at] = parent < 0 ? -1 : place[parent];
        found.counts[at] = old.counts[old.post[at]];
        found.post[at] = at;
    }
    return found;
}

std::uint64_t size_of(std::uint64_t order) {
    return order * (order + 1) / 2;
}

// The fundamental supernodes, as a tree file.
void print_tree(const Analysis &columns) {
    const int n = static_cast<int>(columns.parents.size());
    Ints children(n, 0), nodes(n), firsts;
    for (const int parent : columns.parents) {
        if (parent >= 0) children[parent]++;
    }
    for (int j = 0; j < n; j++) {
        const bool goes_on = j > 0 && columns.parents[j - 1] == j && children[j] == 1 &&
                             columns.counts[j - 1] == columns.counts[j] + 1;
        if (!goes_on) firsts.push_back(j);
        nodes[j] = static_cast<int>(firsts.size());
    }
    firsts.push_back(n);
    Page page;
    page.word("tree 1\n");
    page.line("nodes ", firsts.size() - 1);
    for (std::size_t s = 0; s + 1 < firsts.size(); s++) {
        const int parent = columns.parents[firsts[s + 1] - 1];
        const auto width = static_cast<std::uint64_t>(firsts[s + 1] - firsts[s]);
        const auto front = static_cast<std::uint64_t>(columns.counts[firsts[s]]);
        page.number(parent < 0 ? 0 : static_cast<std::uint64_t>(nodes[parent]));
        page.word(" ");
        page.number(size_of(front - width));
        page.word(" ");
        page.number(size_of(front) - size_of(front - width));
        page.line(" ", width);
    }
    page.word("end\n");
    page.write();
}

double processor_time() {
    return static_cast<double>(std::clock()) / CLOCKS_PER_SEC;
}

// The middle one of five times, in milliseconds.
template <class Call>
void tell_time(const char *name, Call call) {
    std::vector<double> times;
    for (int turn = 0; turn < 5; turn++) {
        const double start = processor_time();
        call();
        times.push_back(processor_time() - start);
    }
    std::sort(times.begin(), times.end());
    std::printf("%s %.3f\n", name, 1000 * times[2]);
}

void tell_times(const Pattern &pattern) {
    tell_time("amd", [&] { amd_of(pattern); });
    tell_time("cxsparse", [&] { by_cxsparse(pattern); });
    tell_time("cholmod", [&] { by_cholmod(pattern); });
}

void print_order(const Ints &order) {
    Page page;
    for (const int column : order) page.line("", static_cast<std::uint64_t>(column) + 1);
    page.write();
}

void print_fronts(const char *package, const char *ordering, const Pattern &pattern) {
    const bool is_natural = !std::strcmp(ordering, "natural"),
               is_amd = !std::strcmp(ordering, "amd");
    const Ints order = is_natural ? Ints{}
                       : is_amd   ? amd_of(pattern)
                                  : read_order(ordering, pattern.columns());
    const Pattern &eliminated = is_natural ? pattern : permuted(pattern, order);
    print_tree(renumbered(!std::strcmp(package, "cholmod") ? by_cholmod(eliminated)
                                                           : by_cxsparse(eliminated)));
}

}

int main(int count, char **words) {
    const auto is = [&](const char *word) { return count > 1 && !std::strcmp(words[1], word); };
    if (is("amd") && count == 3) print_order(amd_of(read_pattern(words[2])));
    else if (is("read") && count == 3)
        std::printf("read %zu\n", read_pattern(words[2]).rows.size());
    else if (is("times") && count == 3) tell_times(read_pattern(words[2]));
    else if (is("tree") && count == 5) print_fronts(words[2], words[3], read_pattern(words[4]));
    else fail("usage: analysis amd|read|times MATRIX | tree PACKAGE ORDERING MATRIX");
}
