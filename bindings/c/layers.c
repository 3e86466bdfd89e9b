/*
 * Scrolled, frozen, shifted: a picture's sums row by row and from a table, and that one cancels the other; and the shift under
 * which one picture matches another.
 */
#include "local_statistics.h"

#include <inttypes.h>
#include <stdio.h>

enum { ROWS = 8, COLUMNS = 12, CELLS = ROWS * COLUMNS };

static int16_t f[CELLS], g[CELLS]; /* g shows what f shows, 3 rows lower and 5 columns further to the right */

static void draw(int16_t *picture, size_t row, size_t column)
{
    static const int16_t bell[3][3] = {{100, 300, 100}, {300, 900, 300}, {100, 300, 100}};
    for (size_t i = 0; i < 3; i++)
        for (size_t j = 0; j < 3; j++)
            picture[(row + i) * COLUMNS + column + j] = bell[i][j];
}

/* What went wrong, in words; the program ends. */
static int failed(const char *call, int32_t status)
{
    fprintf(stderr, "%s: %s\n", call, ls_status_text(status));
    return 1;
}

/* The largest of all differences between scrolled and frozen sums, over a diamond of 2. */
static int32_t largest_difference(int64_t *largest)
{
    int64_t table[CELLS], work[COLUMNS], row[COLUMNS];
    size_t position = 0, granted;
    int32_t status = ls_build(ROWS, COLUMNS, 0, f, CELLS, f, CELLS, 0, 0, LS_PLANE_F, table, CELLS);
    *largest = 0;
    while (status == LS_OK && position < ROWS) {
        size_t i = position;
        status = ls_rows(&position, ROWS, COLUMNS, 0, f, CELLS, f, CELLS, LS_DIAMOND, 2, 0, 0, 0, LS_PLANE_F, 1, work, COLUMNS, row,
                         COLUMNS, &granted);
        for (size_t j = 0; status == LS_OK && j < COLUMNS; j++) {
            int64_t frozen;
            status = ls_read(ROWS, COLUMNS, 0, table, CELLS, LS_DIAMOND, 2, 0, i, j, &frozen);
            int64_t difference = row[j] > frozen ? row[j] - frozen : frozen - row[j];
            if (status == LS_OK && difference > *largest)
                *largest = difference;
        }
    }
    return status;
}

/* How alike f and g are around f's bell, under a shift, in thousandths. */
static int32_t likeness(int32_t down, int32_t right, int64_t *coefficient)
{
    int64_t sums[6];
    for (uint32_t plane = LS_PLANE_ONE; plane <= LS_PLANE_PRODUCT; plane++) {
        int32_t status = ls_direct_sum(ROWS, COLUMNS, 0, f, CELLS, g, CELLS, LS_RECTANGLE, 2, 2, down, right, plane, 2, 2, &sums[plane]);
        if (status != LS_OK)
            return status;
    }
    return ls_coefficient(sums[0], sums[1], sums[2], sums[3], sums[4], sums[5], coefficient);
}

int main(void)
{
    int64_t largest, coefficient;
    int32_t status;
    draw(f, 1, 1);
    draw(g, 4, 6);
    status = largest_difference(&largest);
    if (status != LS_OK)
        return failed("scrolled and frozen", status);
    printf("scrolled less frozen: %" PRId64 " at most\n", largest);
    for (int32_t right = 4; right <= 6; right++) {
        status = likeness(3, right, &coefficient);
        if (status != LS_OK)
            return failed("likeness", status);
        printf("shift (3, %" PRId32 "): %" PRId64 " thousandths\n", right, coefficient);
    }
    return 0;
}
