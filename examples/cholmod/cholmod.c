/* Gives CHOLMOD the best postorder of its fronts as an order of elimination, and tells how much memory a stack of their blocks then takes.
 *
 *     cholmod MATRIX.mtx [amd | metis | natural]
 *
 * CHOLMOD makes its fronts (supernodes) by rising number, so its order of the columns is its order of the fronts. Its own order goes to
 * memplan_analyse, the fronts to memplan_best_postorder, and with memplan_columns they come back as columns: given to CHOLMOD as they are
 * (CHOLMOD_GIVEN, without a postorder of its own) they have the same fill. Peaks count entries of fronts and blocks, by memplan_replay_tree over
 * the supernodes that CHOLMOD itself tells. The program ends with 1 where the factor has not as many entries as before. */
#include <cholmod.h>
#include <inttypes.h>
#include <memplan.h>
#include <stdio.h>
#include <stdlib.h>
#include <string.h>

static void *table(size_t count, size_t size)
{
    void *made = calloc(count ? count : 1, size);
    if (!made) {
        fprintf(stderr, "cholmod: memory ran out\n");
        exit(2);
    }
    return made;
}

static void check(uint32_t status, const memplan_fault *fault)
{
    if (status == MEMPLAN_DONE)
        return;
    fprintf(stderr, "cholmod: memplan answered %u: kind %u at %" PRIu64 " (%" PRIu64 ")\n", status, fault->kind, fault->at, fault->value);
    exit(2);
}

static void *made(void *what, const char *name)
{
    if (!what) {
        fprintf(stderr, "cholmod: there is no %s\n", name);
        exit(2);
    }
    return what;
}

/* ---- the matrix ---- */

/* The upper triangle of the pattern of a matrix and its transpose together. */
static cholmod_sparse *pattern_of(const char *path, cholmod_common *common)
{
    FILE *file = made(fopen(path, "r"), path);
    cholmod_triplet *triplet = made(cholmod_read_triplet(file, common), "matrix that CHOLMOD reads");
    fclose(file);
    if (triplet->nrow != triplet->ncol) {
        fprintf(stderr, "cholmod: the matrix is not square\n");
        exit(2);
    }
    double one[2] = {1, 0};
    cholmod_sparse *given = made(cholmod_triplet_to_sparse(triplet, 0, common), "sparse matrix");
    cholmod_sparse *whole = made(cholmod_copy(given, 0, 0, common), "copy");
    cholmod_sparse *turned = made(cholmod_transpose(whole, 0, common), "transpose");
    cholmod_sparse *both = made(cholmod_add(whole, turned, one, one, 0, 1, common), "sum");
    cholmod_sparse *upper = made(cholmod_copy(both, 1, 0, common), "triangle");
    cholmod_free_triplet(&triplet, common);
    cholmod_free_sparse(&given, common);
    cholmod_free_sparse(&whole, common);
    cholmod_free_sparse(&turned, common);
    cholmod_free_sparse(&both, common);
    return upper;
}

/* ---- CHOLMOD's fronts ---- */

static uint64_t triangle(uint64_t rows)
{
    return rows * (rows + 1) / 2;
}

/* The peak of CHOLMOD's supernodes, as a tree of fronts, by rising number. */
static uint64_t peak_of(const cholmod_factor *factor)
{
    size_t count = factor->nsuper;
    const int *first = factor->super, *start = factor->pi, *rows = factor->s;
    uint32_t *front_of = table(factor->n, sizeof *front_of), *by_number = table(count, sizeof *by_number);
    memplan_node *nodes = table(count, sizeof *nodes);
    for (size_t k = 0; k < count; k++)
        for (int j = first[k]; j < first[k + 1]; j++)
            front_of[j] = (uint32_t)k + 1;
    for (size_t k = 0; k < count; k++) {
        int columns = first[k + 1] - first[k], all = start[k + 1] - start[k], rest = all - columns;
        uint64_t block = triangle((uint64_t)rest);
        nodes[k] = (memplan_node){rest ? front_of[rows[start[k] + columns]] : 0, block, triangle((uint64_t)all) - block, 0, 1};
        by_number[k] = (uint32_t)k + 1;
    }
    memplan_fault fault;
    uint64_t peak;
    check(memplan_replay_tree(nodes, count, by_number, count, &peak, &fault), &fault);
    free(front_of);
    free(by_number);
    free(nodes);
    return peak;
}

/* ---- memplan's order ---- */

static uint32_t *copied(const int *numbers, size_t count)
{
    uint32_t *copy = table(count, sizeof *copy);
    for (size_t i = 0; i < count; i++)
        copy[i] = (uint32_t)numbers[i];
    return copy;
}

/* The columns along the best postorder of the fronts of a matrix, eliminated in CHOLMOD's order, and the peak that is predicted of it. */
static int *along_best_postorder(const cholmod_sparse *matrix, const int *perm, uint64_t *peak)
{
    size_t n = matrix->ncol, entries = (size_t)((const int *)matrix->p)[n];
    uint32_t *starts = copied(matrix->p, n + 1), *rows = copied(matrix->i, entries), *given = copied(perm, n);
    uint32_t *front_of = table(n, sizeof *front_of), *columns = table(n, sizeof *columns);
    uint32_t *order = table(n, sizeof *order), *along = table(n, sizeof *along);
    memplan_node *nodes = table(n, sizeof *nodes);
    const memplan_front_options options = {MEMPLAN_TRIANGLE, 0, 0, 0};
    uint64_t count;
    memplan_fault fault;
    check(memplan_analyse(0, starts, n + 1, rows, entries, given, n, &options, nodes, n, &count, front_of, n, columns, n, &fault), &fault);
    check(memplan_best_postorder(nodes, count, order, count, peak, &fault), &fault);
    check(memplan_columns(0, columns, n, front_of, n, order, count, along, n, &fault), &fault);
    int *back = table(n, sizeof *back);
    for (size_t k = 0; k < n; k++)
        back[k] = (int)along[k];
    free(starts);
    free(rows);
    free(given);
    free(front_of);
    free(columns);
    free(order);
    free(along);
    free(nodes);
    return back;
}

/* ---- before and after ---- */

/* Without relaxation CHOLMOD merges supernodes only where that adds no zero; with it as it does by itself. */
static int try_it(cholmod_sparse *matrix, int ordering, int is_relaxed, cholmod_common *common)
{
    cholmod_defaults(common);
    common->print = 0;
    common->supernodal = CHOLMOD_SUPERNODAL;
    common->nmethods = 1;
    common->method[0].ordering = ordering;
    if (!is_relaxed)
        for (int i = 0; i < 3; i++)
            common->nrelax[i] = 0, common->zrelax[i] = 0;
    cholmod_factor *own = made(cholmod_analyze(matrix, common), "analysis");
    uint64_t before = peak_of(own), predicted;
    double entries = common->lnz;
    int *along = along_best_postorder(matrix, own->Perm, &predicted);
    common->method[0].ordering = CHOLMOD_GIVEN;
    common->postorder = 0;
    cholmod_factor *new = made(cholmod_analyze_p(matrix, along, NULL, 0, common), "analysis of the new order");
    uint64_t after = peak_of(new);
    int holds = common->lnz == entries;
    printf("%-10s %9zu %12" PRIu64 " %9zu %12" PRIu64 " %12" PRIu64 " %12.0f %12.0f  %s\n", is_relaxed ? "relaxed" : "strict",
           own->nsuper, before, new->nsuper, after, predicted, entries, common->lnz, holds ? "holds" : "FAILS");
    cholmod_free_factor(&own, common);
    cholmod_free_factor(&new, common);
    free(along);
    return !holds;
}

int main(int words, char **word)
{
    if (words < 2 || words > 3) {
        fprintf(stderr, "usage: cholmod MATRIX.mtx [amd | metis | natural]\n");
        return 2;
    }
    int ordering = CHOLMOD_AMD;
    if (words == 3 && !strcmp(word[2], "metis"))
        ordering = CHOLMOD_METIS;
    if (words == 3 && !strcmp(word[2], "natural"))
        ordering = CHOLMOD_NATURAL;
    cholmod_common common;
    cholmod_start(&common);
    cholmod_sparse *matrix = pattern_of(word[1], &common);
    printf("supernodes    fronts         peak    fronts   peak after    predicted      entries        after\n");
    int failures = try_it(matrix, ordering, 0, &common) + try_it(matrix, ordering, 1, &common);
    cholmod_free_sparse(&matrix, &common);
    cholmod_finish(&common);
    return failures > 0;
}
