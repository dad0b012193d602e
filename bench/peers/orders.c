/* Orders of elimination by SuiteSparse: AMD's, as its array, and what CHOLMOD makes of one that it
 * is given. bench/orders.py compares both with memplan.
 *
 * usage: orders amd MATRIX             the array that amd_order fills, one number on a line
 *        orders given MATRIX PERM      CHOLMOD's analysis and factor in the order of a permutation file
 *        orders given-post MATRIX PERM the same, where CHOLMOD postorders its elimination tree, as it
 *                                      does unless it is told otherwise
 *
 * MATRIX is a file of Matrix Market with one triangle of a symmetric pattern. The second prints the
 * number of entries of the factor, with its diagonal, and `kept` or `changed`: whether the factor is
 * in the order that was given. The values that it factorizes are made here, so that the diagonal
 * outweighs the rest. */

#include <amd.h>
#include <cholmod.h>
#include <stdio.h>
#include <stdlib.h>
#include <string.h>

static void fail(const char *why) {
    fprintf(stderr, "orders: %s\n", why);
    exit(1);
}

static FILE *opened(const char *name) {
    FILE *file = fopen(name, "r");
    if (!file) fail(name);
    return file;
}

static cholmod_sparse *read_matrix(const char *name, cholmod_common *common) {
    FILE *file = opened(name);
    cholmod_sparse *pattern = cholmod_read_sparse(file, common);
    fclose(file);
    if (!pattern || pattern->stype == 0) fail("the matrix is not symmetric");
    return pattern;
}

/* The numbers of a permutation file, counted from 0. */
static int *read_order(const char *name, int rows) {
    FILE *file = opened(name);
    int *order = malloc(rows * sizeof *order);
    for (int at = 0; at < rows; at++) {
        if (!order || fscanf(file, "%d", &order[at]) != 1) fail("the order is cut off");
        order[at]--;
    }
    fclose(file);
    return order;
}

/* The pattern with values: -1 beside the diagonal, and on it one more than the rows. */
static cholmod_sparse *with_values(cholmod_sparse *pattern, cholmod_common *common) {
    cholmod_sparse *values = cholmod_copy_sparse(pattern, common);
    cholmod_sparse *diagonal = cholmod_speye(pattern->nrow, pattern->nrow, CHOLMOD_REAL, common);
    cholmod_sparse_xtype(CHOLMOD_REAL, values, common);
    diagonal->stype = values->stype;
    double minus[2] = {-1, 0}, heavy[2] = {1 + (double)pattern->nrow, 0};
    cholmod_sparse *sum = cholmod_add(values, diagonal, minus, heavy, 1, 1, common);
    cholmod_free_sparse(&values, common);
    cholmod_free_sparse(&diagonal, common);
    return sum;
}

static void print_amd(cholmod_sparse *pattern) {
    const int rows = (int)pattern->nrow;
    int *order = malloc(rows * sizeof *order);
    if (amd_order(rows, pattern->p, pattern->i, order, NULL, NULL) < AMD_OK) fail("AMD");
    for (int at = 0; at < rows; at++) printf("%d\n", order[at]);
    free(order);
}

static void print_given(cholmod_sparse *pattern, int *order, int is_postordered, cholmod_common *common) {
    /* these lines hand an order to CHOLMOD */
    common->nmethods = 1;
    common->method[0].ordering = CHOLMOD_GIVEN;
    common->postorder = is_postordered;
    cholmod_factor *factor = cholmod_analyze_p(pattern, order, NULL, 0, common);
    if (!factor || common->status != CHOLMOD_OK) fail("CHOLMOD's analysis");
    const int is_kept = !memcmp(factor->Perm, order, pattern->nrow * sizeof *order);
    printf("%.0f %s\n", common->lnz, is_kept ? "kept" : "changed");

    cholmod_sparse *values = with_values(pattern, common);
    if (!cholmod_factorize(values, factor, common) || common->status != CHOLMOD_OK) fail("CHOLMOD's factor");
    cholmod_free_sparse(&values, common);
    cholmod_free_factor(&factor, common);
}

int main(int count, char **words) {
    const int is_amd = count == 3 && !strcmp(words[1], "amd");
    const int is_postordered = count == 4 && !strcmp(words[1], "given-post");
    if (!is_amd && !is_postordered && (count != 4 || strcmp(words[1], "given"))) {
        fail("usage: orders amd MATRIX, orders given|given-post MATRIX PERM");
    }
    cholmod_common common;
    cholmod_start(&common);
    cholmod_sparse *pattern = read_matrix(words[2], &common);
    if (is_amd) {
        print_amd(pattern);
    } else {
        int *order = read_order(words[3], (int)pattern->nrow);
        print_given(pattern, order, is_postordered, &common);
        free(order);
    }
    cholmod_free_sparse(&pattern, &common);
    cholmod_finish(&common);
    return 0;
}
