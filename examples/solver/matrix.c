/* Matrices: from a Matrix Market file, and grids. */
#include "solver.h"
#include <stdio.h>
#include <stdlib.h>
#include <string.h>

_Noreturn void fail(const char *why)
{
    fprintf(stderr, "solver: %s\n", why);
    exit(2);
}

void *table(uint64_t length, uint64_t size)
{
    void *made = calloc(length ? length : 1, size);
    if (!made)
        fail("no memory");
    return made;
}

struct entry {
    int row, column;
    double value;
};

static int by_place(const void *one, const void *two)
{
    const struct entry *a = one, *b = two;
    if (a->column != b->column)
        return a->column < b->column ? -1 : 1;
    return a->row < b->row ? -1 : a->row > b->row;
}

/* The columns of so many entries, each twice, once for each triangle; of repeated entries the first counts. */
static void set_columns(struct matrix *matrix, struct entry *entries, int64_t count)
{
    qsort(entries, (size_t)count, sizeof *entries, by_place);
    matrix->start = table((uint64_t)matrix->order + 1, sizeof *matrix->start);
    matrix->row = table((uint64_t)count, sizeof *matrix->row);
    matrix->value = table((uint64_t)count, sizeof *matrix->value);
    int64_t kept = 0;
    for (int64_t k = 0; k < count; k++) {
        if (k && by_place(&entries[k], &entries[k - 1]) == 0)
            continue;
        matrix->row[kept] = entries[k].row;
        matrix->value[kept] = entries[k].value;
        matrix->start[entries[k].column + 1] = ++kept;
    }
    for (int j = 0; j < matrix->order; j++)
        if (matrix->start[j + 1] < matrix->start[j])
            matrix->start[j + 1] = matrix->start[j];
}

/* Off the diagonal -1, on it one more than there are neighbours: positive definite. */
static void set_laplacian(struct matrix *matrix)
{
    for (int j = 0; j < matrix->order; j++) {
        matrix->diagonal[j] = 1 + (double)(matrix->start[j + 1] - matrix->start[j]);
        for (int64_t k = matrix->start[j]; k < matrix->start[j + 1]; k++)
            matrix->value[k] = -1;
    }
}

/* A symmetric matrix of reals keeps its values; of any other the pattern counts, with the values of a Laplacian. */
static void read_matrix(struct matrix *matrix, const char *name)
{
    FILE *file = fopen(name, "r");
    char line[4096], field[64], symmetry[64];
    if (!file || !fgets(line, sizeof line, file) ||
        sscanf(line, "%%%%MatrixMarket matrix coordinate %63s %63s", field, symmetry) != 2)
        fail("no Matrix Market file of coordinates");
    int values = strcmp(field, "pattern") == 0 ? 0 : strcmp(field, "complex") == 0 ? 2 : 1;
    int own = strcmp(field, "real") == 0 && strcmp(symmetry, "symmetric") == 0;
    do
        if (!fgets(line, sizeof line, file))
            fail("no size line");
    while (line[0] == '%');
    int columns;
    long stated;
    if (sscanf(line, "%d %d %ld", &matrix->order, &columns, &stated) != 3 || columns != matrix->order || columns < 1 || stated < 0)
        fail("no square matrix");
    struct entry *entries = table(2 * (uint64_t)stated, sizeof *entries);
    matrix->diagonal = table((uint64_t)matrix->order, sizeof *matrix->diagonal);
    int64_t count = 0;
    for (long k = 0; k < stated; k++) {
        int i, j;
        double value = 1, imaginary;
        if (fscanf(file, "%d %d", &i, &j) != 2 || i < 1 || j < 1 || i > columns || j > columns ||
            (values > 0 && fscanf(file, "%lf", &value) != 1) || (values > 1 && fscanf(file, "%lf", &imaginary) != 1))
            fail("an entry that is none");
        if (i == j) {
            matrix->diagonal[i - 1] = value;
            continue;
        }
        entries[count++] = (struct entry){i - 1, j - 1, value};
        entries[count++] = (struct entry){j - 1, i - 1, value};
    }
    fclose(file);
    set_columns(matrix, entries, count);
    free(entries);
    if (!own)
        set_laplacian(matrix);
}

/* ---- grids ---- */

/* From a vertex to one that it is joined to. */
struct step {
    int x, y, z;
};

static const struct step FIVE_POINT[] = {{1, 0, 0}, {0, 1, 0}};
static const struct step NINE_POINT[] = {{1, 0, 0}, {0, 1, 0}, {1, 1, 0}, {-1, 1, 0}};
static const struct step SEVEN_POINT[] = {{1, 0, 0}, {0, 1, 0}, {0, 0, 1}};

static int is_inside(int side, int depth, int x, int y, int z)
{
    return x >= 0 && x < side && y >= 0 && y < side && z >= 0 && z < depth;
}

/* Vertices in rows of a square, and in layers of so many; each is joined by these steps. */
static void make_grid(struct matrix *matrix, int side, int depth, const struct step *steps, int step_count)
{
    int order = matrix->order = side * side * depth;
    struct entry *entries = table(2 * (uint64_t)step_count * (uint64_t)order, sizeof *entries);
    int64_t count = 0;
    for (int v = 0; v < order; v++)
        for (const struct step *step = steps; step < steps + step_count; step++) {
            int x = v % side + step->x, y = v / side % side + step->y, z = v / side / side + step->z;
            if (!is_inside(side, depth, x, y, z))
                continue;
            int w = (z * side + y) * side + x;
            entries[count++] = (struct entry){v, w, -1};
            entries[count++] = (struct entry){w, v, -1};
        }
    matrix->diagonal = table((uint64_t)order, sizeof *matrix->diagonal);
    set_columns(matrix, entries, count);
    free(entries);
    set_laplacian(matrix);
}

static int is_grid(const char *input, const char *kind, int most, int *side)
{
    size_t length = strlen(kind);
    if (strncmp(input, kind, length) != 0 || input[length] != ':')
        return 0;
    *side = atoi(input + length + 1);
    if (*side < 1 || *side > most)
        fail("a side that is too small or too great");
    return 1;
}

/* A grid, or a file. */
void make_matrix(struct matrix *matrix, const char *input)
{
    int side;
    if (is_grid(input, "square", 1000, &side))
        make_grid(matrix, side, 1, FIVE_POINT, 2);
    else if (is_grid(input, "nine", 1000, &side))
        make_grid(matrix, side, 1, NINE_POINT, 4);
    else if (is_grid(input, "cube", 100, &side))
        make_grid(matrix, side, side, SEVEN_POINT, 3);
    else
        read_matrix(matrix, input);
}

void free_matrix(struct matrix *matrix)
{
    free(matrix->start);
    free(matrix->row);
    free(matrix->value);
    free(matrix->diagonal);
}
