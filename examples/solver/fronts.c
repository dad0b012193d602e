/* The numbers: each front is assembled from the matrix and from its children's blocks, its columns are eliminated, and what is left of it is
 * its block. Fronts and blocks are counted by the bytes that are asked for. */
#include "solver.h"
#include <math.h>
#include <stdatomic.h>
#include <stdlib.h>
#include <string.h>

void dpotrf_(const char *, const int *, double *, const int *, int *);
void dtrsm_(const char *, const char *, const char *, const char *, const int *, const int *, const double *, const double *, const int *,
            double *, const int *);
void dsyrk_(const char *, const char *, const int *, const int *, const double *, const double *, const int *, const double *, double *,
            const int *);
void dspr_(const char *, const int *, const double *, const double *, const int *, double *);
void dscal_(const int *, const double *, double *, const int *);

/* ---- counted memory ---- */

static _Atomic uint64_t live, most;

void reset_count(void)
{
    live = 0;
    most = 0;
}

uint64_t most_bytes(void)
{
    return most;
}

static void count_more(uint64_t entries)
{
    uint64_t now = atomic_fetch_add(&live, 8 * entries) + 8 * entries, seen = most;
    while (now > seen && !atomic_compare_exchange_weak(&most, &seen, now))
        ;
}

static double *new_block(uint64_t entries)
{
    count_more(entries);
    return table(entries, sizeof(double));
}

static double *grown(double *block, uint64_t before, uint64_t after)
{
    count_more(after - before);
    block = realloc(block, 8 * after);
    if (!block)
        fail("no memory");
    memset(block + before, 0, 8 * (after - before));
    return block;
}

static double *cut(double *block, uint64_t before, uint64_t after)
{
    atomic_fetch_sub(&live, 8 * (before - after));
    if (after == 0) {
        free(block);
        return NULL;
    }
    double *less = realloc(block, 8 * after);
    return less ? less : block;
}

/* ---- where an entry of the lower triangle stands ---- */

uint64_t kept_entries(uint32_t shape, int order)
{
    uint64_t m = (uint64_t)order;
    return shape == MEMPLAN_SQUARE ? m * m : m * (m + 1) / 2;
}

static uint64_t at(uint32_t shape, int order, int i, int j)
{
    uint64_t m = (uint64_t)order, c = (uint64_t)j, r = (uint64_t)i;
    return shape == MEMPLAN_SQUARE ? c * m + r : c * m - c * (c - 1) / 2 + (r - c);
}

static int columns_of(const struct analysis *analysis, int front)
{
    return analysis->first[front + 1] - analysis->first[front];
}

/* ---- assembly ---- */

static int greatest_child(const struct analysis *analysis, int front)
{
    int greatest = -1;
    for (int g = analysis->child[front]; g >= 0; g = analysis->sibling[g])
        if (analysis->rest[g] > 0 && (greatest < 0 || analysis->rest[g] > analysis->rest[greatest]))
            greatest = g;
    return greatest;
}

/* The front over the block of a child, whose entries move to their places in it, from the last on. */
static double *over_child(struct factorization *work, int child, int order, const int *local)
{
    const struct analysis *analysis = work->analysis;
    int size = analysis->rest[child];
    const int *rows = analysis->rows[child];
    double *front = grown(work->block[child], kept_entries(work->analysis->shape, size), kept_entries(work->analysis->shape, order));
    work->block[child] = NULL;
    for (int j = size - 1; j >= 0; j--)
        for (int i = size - 1; i >= (work->analysis->shape == MEMPLAN_TRIANGLE ? j : 0); i--) {
            uint64_t from = at(work->analysis->shape, size, i, j);
            double value = front[from];
            front[from] = 0;
            if (i >= j)
                front[at(work->analysis->shape, order, local[rows[i]], local[rows[j]])] = value;
        }
    return front;
}

static void add_columns(const struct factorization *work, int front, int order, const int *local, double *entries)
{
    const struct matrix *matrix = work->matrix;
    const struct analysis *analysis = work->analysis;
    for (int c = analysis->first[front]; c < analysis->first[front + 1]; c++) {
        int v = analysis->vertex[c], j = local[c];
        entries[at(work->analysis->shape, order, j, j)] += matrix->diagonal[v];
        for (int64_t k = matrix->start[v]; k < matrix->start[v + 1]; k++)
            if (analysis->column[matrix->row[k]] > c)
                entries[at(work->analysis->shape, order, local[analysis->column[matrix->row[k]]], j)] += matrix->value[k];
    }
}

static void add_child(struct factorization *work, int child, int order, const int *local, double *entries)
{
    int size = work->analysis->rest[child];
    const int *rows = work->analysis->rows[child];
    const double *block = work->block[child];
    for (int j = 0; j < size; j++)
        for (int i = j; i < size; i++)
            entries[at(work->analysis->shape, order, local[rows[i]], local[rows[j]])] += block[at(work->analysis->shape, size, i, j)];
    work->block[child] = cut(work->block[child], kept_entries(work->analysis->shape, size), 0);
}

static double *assembled(struct factorization *work, int front, int order, int *local)
{
    const struct analysis *analysis = work->analysis;
    int columns = columns_of(analysis, front);
    for (int c = 0; c < columns; c++)
        local[analysis->first[front] + c] = c;
    for (int r = 0; r < analysis->rest[front]; r++)
        local[analysis->rows[front][r]] = columns + r;
    int under = work->in_place ? greatest_child(analysis, front) : -1;
    double *entries = under >= 0 ? over_child(work, under, order, local) : new_block(kept_entries(work->analysis->shape, order));
    add_columns(work, front, order, local, entries);
    for (int g = analysis->child[front]; g >= 0; g = analysis->sibling[g])
        if (g != under)
            add_child(work, g, order, local, entries);
    return entries;
}

/* ---- elimination ---- */

static void eliminate_square(double *entries, int columns, int rest)
{
    const double plus = 1, minus = -1;
    int order = columns + rest, info;
    dpotrf_("L", &columns, entries, &order, &info);
    if (info)
        fail("the matrix is not positive definite");
    if (rest == 0)
        return;
    dtrsm_("R", "L", "T", "N", &rest, &columns, &plus, entries, &order, entries + columns, &order);
    dsyrk_("L", "N", &rest, &columns, &minus, entries + columns, &order, &plus, entries + (uint64_t)columns * (uint64_t)order + columns,
           &order);
}

static void eliminate_triangle(double *entries, int columns, int rest)
{
    const double minus = -1;
    const int one = 1;
    for (int j = 0; j < columns; j++) {
        int below = columns + rest - j - 1;
        if (!(entries[0] > 0))
            fail("the matrix is not positive definite");
        entries[0] = sqrt(entries[0]);
        double inverse = 1 / entries[0];
        if (below > 0) {
            dscal_(&below, &inverse, entries + 1, &one);
            dspr_("L", &below, &minus, entries + 1, &one, entries + below + 1);
        }
        entries += below + 1;
    }
}

/* The columns of the factor, packed, apart from the counted memory. */
static double *kept_columns(uint32_t shape, const double *entries, int columns, int order)
{
    uint64_t length = kept_entries(MEMPLAN_TRIANGLE, order) - kept_entries(MEMPLAN_TRIANGLE, order - columns), to = 0;
    double *factor = table(length, sizeof *factor);
    for (int j = 0; j < columns; j++) {
        memcpy(factor + to, entries + at(shape, order, j, j), 8 * (size_t)(order - j));
        to += (uint64_t)(order - j);
    }
    return factor;
}

/* What is left of a front moves to its begin. */
static double *left_block(uint32_t shape, double *entries, int columns, int rest)
{
    int order = columns + rest;
    uint64_t before = kept_entries(shape, order), after = kept_entries(shape, rest);
    if (shape == MEMPLAN_TRIANGLE)
        memmove(entries, entries + (before - after), 8 * after);
    else
        for (int j = 0; j < rest; j++)
            memmove(entries + (uint64_t)j * (uint64_t)rest, entries + (uint64_t)(columns + j) * (uint64_t)order + columns,
                    8 * (size_t)rest);
    return cut(entries, before, after);
}

void run_front(struct factorization *work, int front, int *local)
{
    int columns = columns_of(work->analysis, front), rest = work->analysis->rest[front];
    double *entries = assembled(work, front, columns + rest, local);
    if (work->analysis->shape == MEMPLAN_SQUARE)
        eliminate_square(entries, columns, rest);
    else
        eliminate_triangle(entries, columns, rest);
    work->factor[front] = kept_columns(work->analysis->shape, entries, columns, columns + rest);
    work->block[front] = left_block(work->analysis->shape, entries, columns, rest);
}

void begin_factorization(struct factorization *work)
{
    work->block = table((uint64_t)work->analysis->fronts, sizeof *work->block);
    work->factor = table((uint64_t)work->analysis->fronts, sizeof *work->factor);
    reset_count();
}

void end_factorization(struct factorization *work)
{
    for (int f = 0; f < work->analysis->fronts; f++) {
        free(work->block[f]);
        free(work->factor[f]);
    }
    free(work->block);
    free(work->factor);
}

/* ---- solving ---- */

static int row_of(const struct analysis *analysis, int front, int local)
{
    int columns = columns_of(analysis, front);
    return local < columns ? analysis->first[front] + local : analysis->rows[front][local - columns];
}

/* y becomes the solution: forwards through the factor, and back through its transpose. */
static void substitute(const struct factorization *work, double *y)
{
    const struct analysis *analysis = work->analysis;
    for (int f = 0; f < analysis->fronts; f++) {
        int columns = columns_of(analysis, f), order = columns + analysis->rest[f];
        const double *next = work->factor[f];
        for (int j = 0; j < columns; j++) {
            double z = y[analysis->first[f] + j] /= *next++;
            for (int i = j + 1; i < order; i++)
                y[row_of(analysis, f, i)] -= *next++ * z;
        }
    }
    for (int f = analysis->fronts - 1; f >= 0; f--) {
        int columns = columns_of(analysis, f), order = columns + analysis->rest[f];
        const double *column = work->factor[f] + (kept_entries(MEMPLAN_TRIANGLE, order) - kept_entries(MEMPLAN_TRIANGLE, order - columns));
        for (int j = columns - 1; j >= 0; j--) {
            column -= order - j;
            double z = y[analysis->first[f] + j];
            for (int i = j + 1; i < order; i++)
                z -= column[i - j] * y[row_of(analysis, f, i)];
            y[analysis->first[f] + j] = z / column[0];
        }
    }
}

static void multiply(const struct matrix *matrix, const double *x, double *product)
{
    for (int v = 0; v < matrix->order; v++)
        product[v] = matrix->diagonal[v] * x[v];
    for (int v = 0; v < matrix->order; v++)
        for (int64_t k = matrix->start[v]; k < matrix->start[v + 1]; k++)
            product[matrix->row[k]] += matrix->value[k] * x[v];
}

/* The relative residual of the system whose solution is 1, 2, .., 7, 1, 2, .. */
double residual(const struct factorization *work)
{
    const struct analysis *analysis = work->analysis;
    int order = analysis->order;
    double *x = table((uint64_t)order, sizeof *x), *y = table((uint64_t)order, sizeof *y);
    double *right = table((uint64_t)order, sizeof *right), *product = table((uint64_t)order, sizeof *product);
    for (int v = 0; v < order; v++)
        x[v] = 1 + v % 7;
    multiply(work->matrix, x, right);
    for (int c = 0; c < order; c++)
        y[c] = right[analysis->vertex[c]];
    substitute(work, y);
    for (int c = 0; c < order; c++)
        x[analysis->vertex[c]] = y[c];
    multiply(work->matrix, x, product);
    double off = 0, whole = 0;
    for (int v = 0; v < order; v++) {
        off += (product[v] - right[v]) * (product[v] - right[v]);
        whole += right[v] * right[v];
    }
    free(x);
    free(y);
    free(right);
    free(product);
    return sqrt(off / whole);
}
