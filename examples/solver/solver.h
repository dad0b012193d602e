/* A small multifrontal Cholesky factorization (Duff and Reid 1983; Liu 1992), to show that the memory that memplan predicts is the memory
 * that a solver takes. Columns, fronts and rows are counted from 0 here, and from 1 at the calls of memplan. */
#ifndef SOLVER_H
#define SOLVER_H

#include "memplan.h"
#include <stdint.h>

/* A symmetric matrix: its diagonal, and by columns the other entries of both triangles, in rising order. */
struct matrix {
    int order;
    int64_t *start;
    int *row;
    double *value;
    double *diagonal;
};

/* The fronts of a matrix, by their numbers less 1: front f has the columns first[f] to first[f + 1] - 1 and, beside their rows, rest[f]
 * further rows, rows[f] in rising order; its parent takes its block. Columns are the vertices in the order in which they are eliminated. */
struct analysis {
    int order;
    int *vertex; /* by column */
    int *column; /* by vertex */
    uint32_t shape;
    int fronts;
    memplan_node *nodes;
    int *first;
    int *rest;
    int **rows;
    int *child, *sibling; /* the first child of a front, and the next child of the same front; -1 for none */
};

/* A factorization on its way. */
struct factorization {
    const struct matrix *matrix;
    const struct analysis *analysis;
    int in_place;
    double **block;  /* by front: the contribution block that waits for the parent */
    double **factor; /* by front: the columns of the factor, packed */
};

_Noreturn void fail(const char *why);
void *table(uint64_t length, uint64_t size);

/* Ends the program where a call of memplan was refused. */
void check(uint32_t status, const memplan_fault *fault);

/* A Matrix Market file, or a grid: square:SIDE (five-point stencil), nine:SIDE (nine-point), cube:SIDE (seven-point, in space). */
void make_matrix(struct matrix *matrix, const char *input);
void free_matrix(struct matrix *matrix);

/* The columns are eliminated in an order; where it has no places, in that of minimum degree. */
void analyse(struct analysis *analysis, const struct matrix *matrix, const uint32_t *order, size_t places,
             const memplan_front_options *options);
void free_analysis(struct analysis *analysis);

/* The entries of a dense matrix that are kept. */
uint64_t kept_entries(uint32_t shape, int order);
void begin_factorization(struct factorization *work);
void run_front(struct factorization *work, int front, int *local);
double residual(const struct factorization *work);
void end_factorization(struct factorization *work);

/* Bytes of fronts and contribution blocks: the most that were there at once since the last reset. */
void reset_count(void);
uint64_t most_bytes(void);

#endif
