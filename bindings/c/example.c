/* The smallest useful program: the sums of a window at one cell and row by row, and the mean there. */
#include "local_statistics.h"

#include <inttypes.h>
#include <stdio.h>

enum { ROWS = 3, COLUMNS = 3, CELLS = ROWS * COLUMNS };

static const int16_t picture[CELLS] = {1, 2, 3, 4, 5, 6, 7, 8, 9};

/* The sum of a plane over the 3 x 3 window on a cell, whose columns clip; one picture alone is two that are equal, under no shift. */
static int32_t sum_at(uint32_t plane, size_t row, size_t column, int64_t *sum)
{
    return ls_direct_sum(ROWS, COLUMNS, 0, picture, CELLS, picture, CELLS, LS_RECTANGLE, 1, 1, 0, 0, plane, row, column, sum);
}

/* The sums of all rows, one row a call. */
static int32_t print_rows(void)
{
    size_t position = 0, granted;
    int64_t work[COLUMNS], out[COLUMNS];
    while (position < ROWS) {
        int32_t status = ls_rows(&position, ROWS, COLUMNS, 0, picture, CELLS, picture, CELLS, LS_RECTANGLE, 1, 1, 0, 0, LS_PLANE_F,
                                 1, work, COLUMNS, out, COLUMNS, &granted);
        if (status != LS_OK)
            return status;
        printf("row %zu:", position - 1);
        for (size_t j = 0; j < COLUMNS; j++)
            printf(" %" PRId64, out[j]);
        printf("\n");
    }
    return LS_OK;
}

int main(void)
{
    int64_t n, s, a, mean;
    int32_t status = sum_at(LS_PLANE_ONE, 0, 0, &n);
    if (status == LS_OK)
        status = sum_at(LS_PLANE_F, 0, 0, &s);
    if (status == LS_OK)
        status = sum_at(LS_PLANE_F_SQUARED, 0, 0, &a);
    if (status == LS_OK)
        status = ls_mean(n, s, s, a, a, a, &mean);
    if (status == LS_OK) {
        printf("at the corner: %" PRId64 " cells, sum %" PRId64 ", mean %" PRId64 "\n", n, s, mean);
        status = print_rows();
    }
    if (status != LS_OK)
        printf("status %" PRId32 "\n", status);
    return status != LS_OK;
}
