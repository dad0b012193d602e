/* The fronts, their order of elimination and their sizes are memplan's; what is found here are the rows of each front (Liu 1990). */
#include "solver.h"
#include <stdlib.h>
#include <string.h>

/* The arrays of a matrix as memplan takes them. */
static uint32_t *narrow_starts(const struct matrix *matrix)
{
    uint32_t *starts = table((uint64_t)matrix->order + 1, sizeof *starts);
    for (int j = 0; j <= matrix->order; j++)
        starts[j] = (uint32_t)matrix->start[j];
    return starts;
}

static uint32_t *narrow_rows(const struct matrix *matrix)
{
    int64_t count = matrix->start[matrix->order];
    uint32_t *rows = table((uint64_t)count, sizeof *rows);
    for (int64_t k = 0; k < count; k++)
        rows[k] = (uint32_t)matrix->row[k];
    return rows;
}

/* Columns by fronts, in rising number, and in each by vertices. */
static void number_columns(struct analysis *analysis, const uint32_t *front_of)
{
    int fronts = analysis->fronts;
    analysis->first = table((uint64_t)fronts + 1, sizeof *analysis->first);
    for (int f = 0; f < fronts; f++)
        analysis->first[f + 1] = analysis->first[f] + (int)analysis->nodes[f].time;
    int *next = table((uint64_t)fronts, sizeof *next);
    memcpy(next, analysis->first, (size_t)fronts * sizeof *next);
    for (int v = 0; v < analysis->order; v++) {
        int c = next[front_of[v] - 1]++;
        analysis->vertex[c] = v;
        analysis->column[v] = c;
    }
    for (int f = 0; f < fronts; f++)
        if (next[f] != analysis->first[f + 1])
            fail("a front has not as many columns as its node says");
    free(next);
}

static void link_children(struct analysis *analysis)
{
    analysis->child = table((uint64_t)analysis->fronts, sizeof *analysis->child);
    analysis->sibling = table((uint64_t)analysis->fronts, sizeof *analysis->sibling);
    for (int f = 0; f < analysis->fronts; f++)
        analysis->child[f] = -1;
    for (int f = analysis->fronts - 1; f >= 0; f--) {
        int up = (int)analysis->nodes[f].parent - 1;
        if (up >= 0) {
            analysis->sibling[f] = analysis->child[up];
            analysis->child[up] = f;
        }
    }
}

static int by_number(const void *one, const void *two)
{
    int a = *(const int *)one, b = *(const int *)two;
    return (a > b) - (a < b);
}

/* Puts a column among the rows of a front that ends before it, where it is not there yet. */
static void add_row(int *rows, int *found, int *mark, int front, int end, int column)
{
    if (column < end || mark[column] == front + 1)
        return;
    mark[column] = front + 1;
    rows[(*found)++] = column;
}

/* The further rows of a front: those of its columns' entries and of its children's blocks, past its last column. */
static int rows_of_front(const struct analysis *analysis, const struct matrix *matrix, int front, int *mark, int *rows)
{
    int end = analysis->first[front + 1], found = 0;
    for (int c = analysis->first[front]; c < end; c++)
        for (int64_t k = matrix->start[analysis->vertex[c]]; k < matrix->start[analysis->vertex[c] + 1]; k++)
            add_row(rows, &found, mark, front, end, analysis->column[matrix->row[k]]);
    for (int g = analysis->child[front]; g >= 0; g = analysis->sibling[g])
        for (int k = 0; k < analysis->rest[g]; k++)
            add_row(rows, &found, mark, front, end, analysis->rows[g][k]);
    qsort(rows, (size_t)found, sizeof *rows, by_number);
    return found;
}

/* They are as many as the sizes of the node tell. */
static void check_sizes(const struct analysis *analysis, int front)
{
    const memplan_node *node = &analysis->nodes[front];
    uint64_t block = kept_entries(analysis->shape, analysis->rest[front]);
    uint64_t whole = kept_entries(analysis->shape, (int)node->time + analysis->rest[front]);
    if (node->out != block || node->extra != whole - block)
        fail("a front has not the size that its node says");
}

static void find_rows(struct analysis *analysis, const struct matrix *matrix)
{
    analysis->rows = table((uint64_t)analysis->fronts, sizeof *analysis->rows);
    analysis->rest = table((uint64_t)analysis->fronts, sizeof *analysis->rest);
    int *mark = table((uint64_t)analysis->order, sizeof *mark);
    int *rows = table((uint64_t)analysis->order, sizeof *rows);
    for (int f = 0; f < analysis->fronts; f++) {
        analysis->rest[f] = rows_of_front(analysis, matrix, f, mark, rows);
        analysis->rows[f] = table((uint64_t)analysis->rest[f], sizeof *rows);
        memcpy(analysis->rows[f], rows, (size_t)analysis->rest[f] * sizeof *rows);
        check_sizes(analysis, f);
    }
    free(mark);
    free(rows);
}

void analyse(struct analysis *analysis, const struct matrix *matrix, const uint32_t *order, size_t places,
             const memplan_front_options *options)
{
    size_t n = (size_t)matrix->order;
    uint32_t *starts = narrow_starts(matrix), *rows = narrow_rows(matrix), *front_of = table(n, sizeof *front_of);
    uint64_t fronts = 0;
    memplan_fault fault;
    analysis->order = matrix->order;
    analysis->shape = options->shape;
    analysis->nodes = table(n, sizeof *analysis->nodes);
    check(memplan_fronts(0, starts, n + 1, rows, (size_t)matrix->start[n], order, places, options, analysis->nodes, n, &fronts, front_of,
                         n, &fault),
          &fault);
    analysis->fronts = (int)fronts;
    analysis->vertex = table(n, sizeof *analysis->vertex);
    analysis->column = table(n, sizeof *analysis->column);
    number_columns(analysis, front_of);
    link_children(analysis);
    find_rows(analysis, matrix);
    free(starts);
    free(rows);
    free(front_of);
}

void free_analysis(struct analysis *analysis)
{
    for (int f = 0; f < analysis->fronts; f++)
        free(analysis->rows[f]);
    free(analysis->rows);
    free(analysis->nodes);
    free(analysis->vertex);
    free(analysis->column);
    free(analysis->first);
    free(analysis->rest);
    free(analysis->child);
    free(analysis->sibling);
}
