/*
 * A looping drawing, whose last column is joined to its first: a bell over the seam, smoothed with columns that clip and with columns
 * that wrap; and the shifts under which the loop matches the same bell turned by three columns.
 */
#include "local_statistics.h"

#include <inttypes.h>
#include <stdio.h>

enum { COLUMNS = 8, CLIPPED = 0, WRAPPED = 1 };

static const int16_t bell[COLUMNS] = {900, 300, 0, 0, 0, 0, 0, 300};
static const int16_t turned[COLUMNS] = {0, 0, 300, 900, 300, 0, 0, 0};

static int32_t print_smoothed(const char *name, uint32_t columns_wrap)
{
    int16_t out[COLUMNS];
    int32_t status = ls_smooth(1, COLUMNS, columns_wrap, bell, COLUMNS, LS_RECTANGLE, 0, 1, out, COLUMNS);
    if (status != LS_OK)
        return status;
    printf("%s:", name);
    for (int j = 0; j < COLUMNS; j++)
        printf(" %d", out[j]);
    printf("\n");
    return LS_OK;
}

/* How alike the two are around the bell's top, where the columns wrap, in thousandths. */
static int32_t print_likeness(int32_t right)
{
    int64_t sums[6], coefficient;
    int32_t status = LS_OK;
    for (uint32_t plane = LS_PLANE_ONE; status == LS_OK && plane <= LS_PLANE_PRODUCT; plane++)
        status = ls_direct_sum(1, COLUMNS, WRAPPED, bell, COLUMNS, turned, COLUMNS, LS_RECTANGLE, 0, 3, 0, right, plane, 0, 0,
                               &sums[plane]);
    if (status == LS_OK)
        status = ls_coefficient(sums[0], sums[1], sums[2], sums[3], sums[4], sums[5], &coefficient);
    if (status == LS_OK)
        printf("turned by %" PRId32 ": %" PRId64 " thousandths\n", right, coefficient);
    return status;
}

int main(void)
{
    static const int32_t turns[] = {3, -5, 803}; /* to the right, to the left, many times round */
    int32_t status = print_smoothed("clipped", CLIPPED);
    if (status == LS_OK)
        status = print_smoothed("wrapped", WRAPPED);
    for (size_t i = 0; status == LS_OK && i < sizeof turns / sizeof turns[0]; i++)
        status = print_likeness(turns[i]);
    if (status != LS_OK)
        fprintf(stderr, "%s\n", ls_status_text(status));
    return status != LS_OK;
}
