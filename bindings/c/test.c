/*
 * Calls every function of the library: document 01's own numbers, columns that wrap, every refusal and their order. Everything
 * that a call may write is in one record, with guards between; after each call the whole record is compared with what it must be.
 */
#include "local_statistics.h"

#include <inttypes.h>
#include <stdio.h>
#include <string.h>

enum { ROWS = 3, COLUMNS = 3, CELLS = ROWS * COLUMNS };

/* Picture K. */
static const int16_t k[CELLS] = {1, 2, 3, 4, 5, 6, 7, 8, 9};

/* ---- What the calls write ------------------------------------------------------------------- */

/* The members and the guards leave no gap between them, so that records can be compared as bytes. */
struct lent {
    int64_t guard0;
    int64_t number; /* a sum or a statistic */
    int64_t guard1;
    int64_t table[CELLS + 1];
    int64_t guard2;
    int64_t work[COLUMNS + 1];
    int64_t guard3;
    int64_t out[CELLS + 1];
    int64_t guard4;
    size_t position;
    int64_t guard5;
    size_t granted;
    int64_t guard6;
    size_t row;
    int64_t guard7;
    size_t column;
    int64_t guard8;
    size_t written;
    int64_t guard9;
    uint32_t kind, guard10;
    float level;
    uint32_t guard11;
    float spread;
    uint32_t guard12;
    int16_t smoothed[12];
    int64_t guard13;
    uint8_t text[LS_PANEL_ROOM + 8];
    int64_t guard14;
};

static struct lent lent, expected;
static int calls, failures;

/* Begins anew, with other contents each time. */
static void forget(void)
{
    memset(&lent, 0x5a + calls, sizeof lent);
    memcpy(&expected, &lent, sizeof lent);
}

/* The call gave this status, and left everything as expected. */
static void check(int line, const char *call, int32_t status, int32_t wanted)
{
    calls++;
    if (status != wanted || memcmp(&lent, &expected, sizeof lent) != 0) {
        failures++;
        printf("line %d: %s: status %" PRId32 ", wanted %" PRId32 "%s\n", line, call, status, wanted,
               status == wanted ? ", but something else was written than expected" : "");
        memcpy(&lent, &expected, sizeof lent);
    }
}

/* A call of its own; a call that goes on from the one before. */
#define STEP(wanted, call) check(__LINE__, #call, call, wanted)
#define CHECK(wanted, call) (STEP(wanted, call), forget())

/* ---- What they are given -------------------------------------------------------------------- */

struct inputs {
    size_t rows, columns;
    uint32_t columns_wrap;
    const int16_t *f;
    size_t f_length;
    const int16_t *g;
    size_t g_length;
    uint32_t shape;
    int32_t first, second, down, right;
    uint32_t plane;
    size_t row, column, request, area_length, work_length;
};

/* K with itself, its columns clipped, rectangle 1, 1, plane 1, at the centre; a request of all rows. */
static const struct inputs legal = {ROWS, COLUMNS, 0, k, CELLS, k, CELLS, LS_RECTANGLE, 1, 1, 0, 0, LS_PLANE_F, 1, 1, ROWS, CELLS, COLUMNS};

typedef int32_t operation(const struct inputs *);

static int32_t direct_sum(const struct inputs *x)
{
    return ls_direct_sum(x->rows, x->columns, x->columns_wrap, x->f, x->f_length, x->g, x->g_length, x->shape, x->first, x->second,
                         x->down, x->right, x->plane, x->row, x->column, &lent.number);
}

static int32_t build(const struct inputs *x)
{
    return ls_build(x->rows, x->columns, x->columns_wrap, x->f, x->f_length, x->g, x->g_length, x->down, x->right, x->plane,
                    lent.table, x->area_length);
}

static int32_t read_table(const struct inputs *x)
{
    return ls_read(x->rows, x->columns, x->columns_wrap, lent.table, x->area_length, x->shape, x->first, x->second, x->row, x->column,
                   &lent.number);
}

static int32_t rows(const struct inputs *x)
{
    return ls_rows(&lent.position, x->rows, x->columns, x->columns_wrap, x->f, x->f_length, x->g, x->g_length, x->shape, x->first,
                   x->second, x->down, x->right, x->plane, x->request, lent.work, x->work_length, lent.out, x->area_length,
                   &lent.granted);
}

static int32_t fresh_rows(const struct inputs *x)
{
    lent.position = expected.position = 0;
    return rows(x);
}

static int32_t smooth(const struct inputs *x)
{
    return ls_smooth(x->rows, x->columns, x->columns_wrap, x->f, x->f_length, x->shape, x->first, x->second, lent.smoothed, x->area_length);
}

static int32_t steady(const struct inputs *x)
{
    return ls_steady(x->rows, x->columns, x->columns_wrap, x->f, x->f_length, x->g, x->g_length, x->shape, x->first, x->second,
                     x->down, x->right, &lent.row, &lent.column);
}

static int32_t panel(const char *text, size_t room)
{
    return ls_panel((const uint8_t *)text, strlen(text), lent.text, room, &lent.written);
}

/* ---- Refusals ------------------------------------------------------------------------------- */

/* The numbers of a call's refusals in their order, with a 0 after them. */
#define NUMBERS(...) ((const int[]){__VA_ARGS__, 0})

#define FAULT(operation, refusal, member, value) \
    do {                                         \
        struct inputs x = legal;                 \
        x.member = value;                        \
        CHECK(refusal, operation(&x));           \
    } while (0)

static void size_faults(operation *call)
{
    FAULT(call, LS_REFUSED_SIZE, rows, 0);
    FAULT(call, LS_REFUSED_SIZE, rows, LS_MAX_ROWS + 1);
    FAULT(call, LS_REFUSED_SIZE, rows, SIZE_MAX);
    FAULT(call, LS_REFUSED_SIZE, columns, 0);
    FAULT(call, LS_REFUSED_SIZE, columns, LS_MAX_COLUMNS + 1);
    FAULT(call, LS_REFUSED_SIZE, columns, SIZE_MAX);
}

static void f_faults(operation *call)
{
    FAULT(call, LS_REFUSED_PICTURE, f_length, CELLS - 1);
    FAULT(call, LS_REFUSED_PICTURE, f_length, 0);
    FAULT(call, LS_REFUSED_PICTURE, rows, ROWS + 1);
}

static void g_faults(operation *call)
{
    FAULT(call, LS_REFUSED_PICTURE, g_length, CELLS - 1);
}

static void window_faults(operation *call)
{
    static const int32_t windows[][3] = {
        {0, 1, 1}, {4, 1, 1}, {-1, 1, 1},                                                 /* no shape */
        {LS_RECTANGLE, 128, 0}, {LS_RECTANGLE, 0, 128}, {LS_RECTANGLE, -1, 0}, {LS_RECTANGLE, 0, -1},
        {LS_DIAMOND, 128, 0}, {LS_DIAMOND, -1, 0}, {LS_DIAMOND, 1, 1}, {LS_DIAMOND, 1, -1},
        {LS_HEXAGON, 64, 64}, {LS_HEXAGON, -1, 1}, {LS_HEXAGON, 1, -1}, {LS_HEXAGON, INT32_MAX, INT32_MAX},
    };
    for (size_t i = 0; i < sizeof windows / sizeof windows[0]; i++) {
        struct inputs x = legal;
        x.shape = (uint32_t)windows[i][0];
        x.first = windows[i][1];
        x.second = windows[i][2];
        CHECK(LS_REFUSED_WINDOW, call(&x));
    }
}

static void shift_faults(operation *call)
{
    FAULT(call, LS_REFUSED_SHIFT, down, LS_MAX_DOWN + 1);
    FAULT(call, LS_REFUSED_SHIFT, down, -LS_MAX_DOWN - 1);
    FAULT(call, LS_REFUSED_SHIFT, right, LS_MAX_RIGHT + 1);
    FAULT(call, LS_REFUSED_SHIFT, right, -LS_MAX_RIGHT - 1);
    FAULT(call, LS_REFUSED_SHIFT, right, INT32_MIN);
}

static void plane_faults(operation *call)
{
    FAULT(call, LS_REFUSED_PLANE, plane, LS_PLANE_PRODUCT + 1);
    FAULT(call, LS_REFUSED_PLANE, plane, UINT32_MAX);
}

static void cell_faults(operation *call)
{
    FAULT(call, LS_REFUSED_CELL, row, ROWS);
    FAULT(call, LS_REFUSED_CELL, row, SIZE_MAX);
    FAULT(call, LS_REFUSED_CELL, column, COLUMNS);
    FAULT(call, LS_REFUSED_CELL, column, SIZE_MAX);
}

static void request_faults(operation *call)
{
    FAULT(call, LS_REFUSED_REQUEST, request, ROWS + 1);
    FAULT(call, LS_REFUSED_REQUEST, request, SIZE_MAX);
    lent.position = expected.position = ROWS + 1;
    STEP(LS_REFUSED_REQUEST, rows(&legal));
    lent.position = expected.position = SIZE_MAX;
    STEP(LS_REFUSED_REQUEST, rows(&legal));
    lent.position = expected.position = 1;
    CHECK(LS_REFUSED_REQUEST, rows(&legal));
}

static void area_faults(operation *call)
{
    FAULT(call, LS_REFUSED_AREA, area_length, CELLS - 1);
    FAULT(call, LS_REFUSED_AREA, area_length, CELLS + 1);
    FAULT(call, LS_REFUSED_AREA, area_length, 0);
}

static void work_faults(operation *call)
{
    FAULT(call, LS_REFUSED_AREA, work_length, COLUMNS - 1);
    FAULT(call, LS_REFUSED_AREA, work_length, COLUMNS + 1);
}

/* The window's widest row has 5 cells and the picture 3 columns, which any number but 0 wraps; a high window with a row of 3 is taken. */
static void width_faults(operation *call)
{
    static const int32_t windows[][3] = {
        {LS_RECTANGLE, 0, 2}, {LS_RECTANGLE, 127, 127}, {LS_DIAMOND, 2, 0}, {LS_HEXAGON, 1, 1}, {LS_HEXAGON, 2, 0}, {LS_HEXAGON, 0, 2},
    };
    static const uint32_t wrapping[] = {1, 2, 256, UINT32_MAX};
    for (size_t i = 0; i < sizeof windows / sizeof windows[0]; i++)
        for (size_t j = 0; j < sizeof wrapping / sizeof wrapping[0]; j++) {
            struct inputs x = legal;
            x.columns_wrap = wrapping[j];
            x.shape = (uint32_t)windows[i][0];
            x.first = windows[i][1];
            x.second = windows[i][2];
            CHECK(LS_REFUSED_WIDTH, call(&x));
        }
}

/* One fault of the number, whatever other faults there are. */
static void spoil(struct inputs *x, int number)
{
    switch (number) {
    case LS_REFUSED_SIZE: x->rows = LS_MAX_ROWS + 1; break;
    case LS_REFUSED_PICTURE: x->f_length = CELLS - 1; break;
    case LS_REFUSED_WINDOW: x->shape = 0; break;
    case LS_REFUSED_SHIFT: x->down = LS_MAX_DOWN + 1; break;
    case LS_REFUSED_PLANE: x->plane = LS_PLANE_PRODUCT + 1; break;
    case LS_REFUSED_CELL: x->row = SIZE_MAX; break;
    case LS_REFUSED_REQUEST: x->request = SIZE_MAX; break;
    case LS_REFUSED_AREA: x->area_length = 0; break;
    case LS_REFUSED_WIDTH: x->columns_wrap = 1, x->second = 2; break;
    }
}

/* Of two faults the one whose number comes first is the answer. */
static void order(operation *call, const int *numbers)
{
    for (const int *low = numbers; *low != 0; low++)
        for (const int *high = low; *high != 0; high++) {
            struct inputs x = legal;
            spoil(&x, *high);
            spoil(&x, *low);
            CHECK(*low, call(&x));
        }
}

static void faults(operation *call, const int *numbers)
{
    static void (*const of_number[])(operation *) = {
        [LS_REFUSED_SIZE] = size_faults,   [LS_REFUSED_PICTURE] = f_faults,       [LS_REFUSED_WINDOW] = window_faults,
        [LS_REFUSED_SHIFT] = shift_faults, [LS_REFUSED_PLANE] = plane_faults,     [LS_REFUSED_CELL] = cell_faults,
        [LS_REFUSED_AREA] = area_faults,   [LS_REFUSED_REQUEST] = request_faults, [LS_REFUSED_WIDTH] = width_faults,
    };
    for (const int *number = numbers; *number != 0; number++)
        of_number[*number](call);
    order(call, numbers);
}

static void test_refusals(void)
{
    faults(direct_sum, NUMBERS(1, 2, 3, 4, 5, 11, 6));
    g_faults(direct_sum);
    faults(build, NUMBERS(1, 2, 4, 5, 8));
    g_faults(build);
    faults(read_table, NUMBERS(1, 3, 11, 6, 8));
    faults(fresh_rows, NUMBERS(1, 2, 3, 4, 5, 11, 7, 8));
    g_faults(fresh_rows);
    work_faults(fresh_rows);
    faults(smooth, NUMBERS(1, 2, 3, 11, 8));
    faults(steady, NUMBERS(1, 2, 3, 4, 11));
    g_faults(steady);
}

/* ---- Sums ----------------------------------------------------------------------------------- */

static void check_sum(uint32_t shape, int32_t first, int32_t second, uint32_t plane, size_t row, size_t column, int64_t sum)
{
    struct inputs x = legal;
    x.shape = shape;
    x.first = first;
    x.second = second;
    x.plane = plane;
    x.row = row;
    x.column = column;
    expected.number = sum;
    CHECK(LS_OK, direct_sum(&x));
}

/* The whole of K, with itself moved by one row and one column. */
static void check_shifted(uint32_t plane, int64_t sum)
{
    struct inputs x = legal;
    x.down = x.right = 1;
    x.plane = plane;
    expected.number = sum;
    CHECK(LS_OK, direct_sum(&x));
}

/* Plane 1 of K, whose columns wrap. */
static void check_looped(uint32_t shape, int32_t first, int32_t second, size_t row, size_t column, int64_t sum)
{
    struct inputs x = legal;
    x.shape = shape;
    x.first = first;
    x.second = second;
    x.row = row;
    x.column = column;
    expected.number = sum;
    for (x.columns_wrap = 1; x.columns_wrap <= 2; x.columns_wrap++) {
        STEP(LS_OK, direct_sum(&x));
        lent.number = ~sum;
    }
    x.columns_wrap = UINT32_MAX;
    CHECK(LS_OK, direct_sum(&x));
}

/* The whole of K, with itself moved by one row and so many columns, which wrap. */
static void check_looped_shift(int32_t right, uint32_t plane, int64_t sum)
{
    struct inputs x = legal;
    x.columns_wrap = 1;
    x.down = 1;
    x.right = right;
    x.plane = plane;
    expected.number = sum;
    CHECK(LS_OK, direct_sum(&x));
}

static void test_loops(void)
{
    static const int32_t one_to_the_right[] = {1, -2, 4, 1021, -1022};
    check_looped(LS_RECTANGLE, 1, 1, 0, 0, 21);
    check_looped(LS_RECTANGLE, 0, 1, 2, 2, 24);
    check_looped(LS_RECTANGLE, 127, 0, 2, 2, 18);
    check_looped(LS_RECTANGLE, 127, 1, 2, 2, 45);
    check_looped(LS_DIAMOND, 1, 0, 0, 0, 10);
    check_looped(LS_DIAMOND, 1, 0, 1, 2, 27);
    check_looped(LS_DIAMOND, 0, 0, 1, 2, 6);
    check_looped(LS_HEXAGON, 0, 1, 1, 0, 23);
    check_looped(LS_HEXAGON, 1, 0, 0, 2, 6);
    for (size_t i = 0; i < sizeof one_to_the_right / sizeof one_to_the_right[0]; i++) {
        check_looped_shift(one_to_the_right[i], LS_PLANE_ONE, 6);
        check_looped_shift(one_to_the_right[i], LS_PLANE_F, 21);
        check_looped_shift(one_to_the_right[i], LS_PLANE_G, 39);
        check_looped_shift(one_to_the_right[i], LS_PLANE_PRODUCT, 148);
    }
    check_looped_shift(LS_MAX_RIGHT, LS_PLANE_PRODUCT, 4 + 10 + 18 + 28 + 40 + 54);
}

static void test_direct_sums(void)
{
    check_sum(LS_RECTANGLE, 1, 1, LS_PLANE_ONE, 1, 1, 9);
    check_sum(LS_RECTANGLE, 1, 1, LS_PLANE_F, 1, 1, 45);
    check_sum(LS_RECTANGLE, 1, 1, LS_PLANE_F_SQUARED, 1, 1, 285);
    check_sum(LS_RECTANGLE, 1, 1, LS_PLANE_ONE, 0, 0, 4);
    check_sum(LS_RECTANGLE, 1, 1, LS_PLANE_F, 0, 0, 12);
    check_sum(LS_RECTANGLE, 1, 1, LS_PLANE_PRODUCT, 0, 0, 46);
    check_sum(LS_RECTANGLE, 0, 127, LS_PLANE_G, 2, 0, 24);
    check_sum(LS_RECTANGLE, 127, 0, LS_PLANE_G, 2, 0, 12);
    check_sum(LS_DIAMOND, 1, 0, LS_PLANE_ONE, 1, 1, 5);
    check_sum(LS_DIAMOND, 1, 0, LS_PLANE_F, 1, 1, 25);
    check_sum(LS_DIAMOND, 1, 0, LS_PLANE_G_SQUARED, 1, 1, 145);
    check_sum(LS_DIAMOND, 127, 0, LS_PLANE_F, 2, 2, 45);
    check_sum(LS_HEXAGON, 1, 1, LS_PLANE_ONE, 1, 1, 9);
    check_sum(LS_HEXAGON, 1, 1, LS_PLANE_F, 1, 1, 45);
    check_sum(LS_HEXAGON, 2, 0, LS_PLANE_F, 0, 0, 6);
    check_shifted(LS_PLANE_ONE, 4);
    check_shifted(LS_PLANE_F, 12);
    check_shifted(LS_PLANE_G, 28);
    check_shifted(LS_PLANE_F_SQUARED, 46);
    check_shifted(LS_PLANE_G_SQUARED, 206);
    check_shifted(LS_PLANE_PRODUCT, 94);
}

static void test_tables(void)
{
    static const int64_t table[CELLS] = {1, 3, 6, 5, 12, 21, 12, 27, 45};
    memcpy(expected.table, table, sizeof table);
    STEP(LS_OK, build(&legal));
    expected.number = 45;
    STEP(LS_OK, read_table(&legal));

    /* foreign contents: the corners of the centre alone, wrapping at 64 bits */
    struct inputs x = legal;
    x.first = x.second = 0;
    lent.table[0] = expected.table[0] = INT64_MAX;
    lent.table[4] = expected.table[4] = INT64_MAX;
    lent.table[1] = expected.table[1] = -1;
    lent.table[3] = expected.table[3] = -1;
    expected.number = 0;
    STEP(LS_OK, read_table(&x));

    /* the same where columns wrap, round the edge: all columns of the middle row */
    x = legal;
    x.first = 0;
    x.columns_wrap = 1;
    x.column = 2;
    lent.table[5] = expected.table[5] = INT64_MIN;
    lent.table[2] = expected.table[2] = 1;
    expected.number = INT64_MAX;
    CHECK(LS_OK, read_table(&x));
}

/* The three ways to a sum agree at every cell. */
static void agree(struct inputs x)
{
    int64_t sums[CELLS], work[COLUMNS];
    size_t position = 0, granted;
    STEP(LS_OK, ls_rows(&position, ROWS, COLUMNS, x.columns_wrap, k, CELLS, k, CELLS, x.shape, x.first, x.second, x.down, x.right,
                        x.plane, ROWS, work, COLUMNS, sums, CELLS, &granted));
    STEP(LS_OK, ls_build(ROWS, COLUMNS, x.columns_wrap, k, CELLS, k, CELLS, x.down, x.right, x.plane, expected.table, CELLS) | build(&x));
    for (x.row = 0; x.row < ROWS; x.row++)
        for (x.column = 0; x.column < COLUMNS; x.column++) {
            expected.number = sums[x.row * COLUMNS + x.column];
            lent.number = ~expected.number;
            STEP(LS_OK, direct_sum(&x));
            lent.number = ~expected.number;
            STEP(LS_OK, read_table(&x));
        }
    forget();
}

static void test_agreement(void)
{
    struct inputs x = legal;
    for (x.shape = LS_RECTANGLE; x.shape <= LS_HEXAGON; x.shape++)
        for (x.plane = LS_PLANE_ONE; x.plane <= LS_PLANE_PRODUCT; x.plane++)
            for (x.down = -2; x.down <= 2; x.down++) {
                x.second = x.shape == LS_DIAMOND ? 0 : 1;
                x.first = 1;
                x.columns_wrap = 0;
                x.right = -x.down / 2;
                agree(x);
                x.first = x.shape == LS_HEXAGON ? 0 : 1; /* its widest row fits */
                x.columns_wrap = 1;
                for (x.right = -7; x.right <= 7; x.right += 7)
                    agree(x);
            }
}

static void test_session(void)
{
    static const int64_t sums[CELLS] = {12, 21, 16, 27, 45, 33, 24, 39, 28};
    static const int64_t columns_of_two[COLUMNS] = {12, 15, 18}, columns_of_last[COLUMNS] = {11, 13, 15};
    struct inputs x = legal;
    lent.position = expected.position = 0;
    x.request = x.area_length = 0;
    expected.granted = 0;
    STEP(LS_OK, rows(&x));

    x.request = 2;
    x.area_length = 2 * COLUMNS;
    expected.position = expected.granted = 2;
    memcpy(expected.out, sums, 2 * COLUMNS * sizeof sums[0]);
    memcpy(expected.work, columns_of_two, sizeof columns_of_two);
    STEP(LS_OK, rows(&x));

    STEP(LS_REFUSED_REQUEST, rows(&x));
    x.request = 1;
    STEP(LS_REFUSED_AREA, rows(&x));

    x.area_length = COLUMNS;
    expected.position = 3;
    expected.granted = 1;
    memcpy(expected.out, sums + 2 * COLUMNS, COLUMNS * sizeof sums[0]);
    memcpy(expected.work, columns_of_last, sizeof columns_of_last);
    STEP(LS_OK, rows(&x));

    STEP(LS_REFUSED_REQUEST, rows(&x));
    x.request = x.area_length = 0;
    expected.granted = 0;
    CHECK(LS_OK, rows(&x));
}

/* Where columns wrap, the window on each cell of a row of K holds the same columns. */
static void test_looped_session(void)
{
    static const int64_t sums[CELLS] = {21, 21, 21, 45, 45, 45, 39, 39, 39};
    static const int64_t columns_of_last[COLUMNS] = {11, 13, 15};
    struct inputs x = legal;
    x.columns_wrap = 1;
    lent.position = 0;
    expected.position = expected.granted = 3;
    memcpy(expected.out, sums, sizeof sums);
    memcpy(expected.work, columns_of_last, sizeof columns_of_last);
    CHECK(LS_OK, rows(&x));
}

/* ---- Statistics ----------------------------------------------------------------------------- */

struct sums {
    int64_t n, s, t, a, b, p;
};

typedef int32_t statistic(int64_t n, int64_t s, int64_t t, int64_t a, int64_t b, int64_t p, int64_t *value);

static int32_t of_sums(statistic *call, struct sums x)
{
    return call(x.n, x.s, x.t, x.a, x.b, x.p, &lent.number);
}

static int32_t voice(struct sums x)
{
    return ls_voice(x.n, x.s, x.t, x.a, x.b, x.p, &lent.kind, &lent.level, &lent.spread);
}

static void check_value(statistic *call, struct sums x, int64_t value)
{
    expected.number = value;
    CHECK(LS_OK, of_sums(call, x));
}

static void check_voice(struct sums x, uint32_t kind, float level, float spread)
{
    expected.kind = kind;
    expected.level = level;
    expected.spread = spread;
    CHECK(LS_OK, voice(x));
}

/* All five give this status, and write nothing. */
static void check_none(struct sums x, int32_t status)
{
    CHECK(status, of_sums(ls_mean, x));
    CHECK(status, of_sums(ls_variance, x));
    CHECK(status, of_sums(ls_deviation, x));
    CHECK(status, of_sums(ls_coefficient, x));
    CHECK(status, voice(x));
}

static void test_statistics(void)
{
    const struct sums whole = {9, 45, 45, 285, 285, 285}, corner = {4, 12, 12, 46, 46, 46};
    check_value(ls_mean, whole, 5);
    check_value(ls_variance, whole, 7);
    check_value(ls_deviation, whole, 2);
    check_voice(whole, LS_GRAINY, 5.0f / 32768.0f, 2.0f / 32768.0f);
    check_value(ls_mean, corner, 3);
    check_value(ls_variance, corner, 3);
    check_value(ls_deviation, corner, 1);

    check_value(ls_mean, (struct sums){2, -1, 0, 1, 0, 0}, 0);
    check_value(ls_mean, (struct sums){2, -3, 0, 5, 0, 0}, -1);
    check_value(ls_mean, (struct sums){3, -5, 0, 9, 0, 0}, -2);
    check_value(ls_deviation, (struct sums){3, 1, 0, 11, 0, 0}, 1);
    check_voice((struct sums){2, 1, 0, 1, 0, 0}, LS_GRAINY, 1.0f / 32768.0f, 0.0f);
    check_voice((struct sums){2, -1, 0, 1, 0, 0}, LS_GRAINY, 0.0f, 0.0f);
    check_voice((struct sums){3, 0, 0, 0, 0, 0}, LS_STEADY, 0.0f, 0.0f);
    check_voice((struct sums){2, -65536, 0, INT64_C(2) << 30, 0, 0}, LS_STEADY, -1.0f, 0.0f);

    const struct sums extremes = {2, -1, 0, INT64_C(2147418113), 0, 0};
    check_value(ls_variance, extremes, 1073709056);
    check_value(ls_deviation, extremes, 32767);

    check_value(ls_coefficient, (struct sums){3, 6, 12, 14, 56, 28}, 1000);
    check_value(ls_coefficient, (struct sums){3, 6, 6, 14, 14, 10}, -1000);
    check_value(ls_coefficient, (struct sums){3, 6, 6, 14, 14, 13}, 500);
    CHECK(LS_FLAT, of_sums(ls_coefficient, (struct sums){3, 6, 12, 14, 48, 24}));
    CHECK(LS_FLAT, of_sums(ls_coefficient, (struct sums){3, 12, 6, 48, 14, 24}));

    check_none((struct sums){0, 0, 0, 0, 0, 0}, LS_EMPTY);
    check_none((struct sums){-1, 0, 0, 0, 0, 0}, LS_REFUSED_SUMS);
    check_none((struct sums){LS_MAX_CELLS + 1, 0, 0, 0, 0, 0}, LS_REFUSED_SUMS);
    check_none((struct sums){0, 1, 0, 0, 0, 0}, LS_REFUSED_SUMS);
    check_none((struct sums){1, 0, 0, 0, -1, 0}, LS_REFUSED_SUMS);
    check_none((struct sums){1, 0, 32769, 0, INT64_C(1) << 30, 0}, LS_REFUSED_SUMS);
    check_none((struct sums){2, 3, 0, 4, 0, 0}, LS_REFUSED_SUMS);
    check_none((struct sums){2, 0, 0, 1, 1, 2}, LS_REFUSED_SUMS);
    check_none((struct sums){INT64_MIN, INT64_MIN, INT64_MIN, INT64_MIN, INT64_MIN, INT64_MIN}, LS_REFUSED_SUMS);
    check_none((struct sums){1, INT64_MIN, INT64_MAX, INT64_MAX, INT64_MAX, INT64_MIN}, LS_REFUSED_SUMS);
    check_value(ls_mean, (struct sums){LS_MAX_CELLS, 0, 0, 0, 0, 0}, 0);
}

/* ---- Smoothing, the steady cell, panel ------------------------------------------------------ */

static void test_smoothing(void)
{
    static const int16_t picture[6] = {1, 2, 6, -1, -2, -6}, means[6] = {2, 3, 4, -1, -3, -4};
    static const int16_t looped[6] = {3, 3, 3, -3, -3, -3};
    struct inputs x = legal;
    x.rows = 2;
    x.f = picture;
    x.f_length = x.area_length = 6;
    x.first = 0;
    memcpy(expected.smoothed, means, sizeof means);
    CHECK(LS_OK, smooth(&x));

    x.columns_wrap = 1;
    memcpy(expected.smoothed, looped, sizeof looped);
    CHECK(LS_OK, smooth(&x));
}

static void test_steady(void)
{
    static const int16_t picture[CELLS] = {5, 7, 7, 6, 6, 6, 1, 2, 3};
    struct inputs x = legal;
    x.f = picture;
    x.first = 0;
    x.second = 1;
    expected.row = 0;
    expected.column = 2;
    CHECK(LS_OK, steady(&x));
    x.columns_wrap = 1;
    expected.row = 1;
    expected.column = 0;
    CHECK(LS_OK, steady(&x));
    x.columns_wrap = 0;
    x.second = 2;
    expected.row = 1;
    expected.column = 0;
    CHECK(LS_OK, steady(&x));
    x.first = 1;
    CHECK(LS_NOWHERE, steady(&x));

    /* no cell counts */
    x = legal;
    x.down = ROWS;
    CHECK(LS_NOWHERE, steady(&x));
}

static void check_panel(const char *text, size_t room, const char *output)
{
    memcpy(expected.text, output, strlen(output));
    expected.written = strlen(output);
    CHECK(LS_OK, panel(text, room));
}

static void test_panel(void)
{
    check_panel("2 3 1 0 1 1 2 6 -1 -2 -6", LS_PANEL_ROOM, "2 3 4\n-1 -3 -4\n");
    check_panel("\n1\t1 2 0 0 -32768 ", LS_PANEL_ROOM + 1, "-32768\n");
    check_panel("", LS_PANEL_ROOM, "refused 10\n");
    check_panel("2 3 1 0 1 1 2 6 -1 -2", LS_PANEL_ROOM, "refused 10\n");
    check_panel("257 1", LS_PANEL_ROOM, "refused 1\n");
    check_panel("1 1 2 0 1 5", LS_PANEL_ROOM, "refused 3\n");
    CHECK(LS_REFUSED_AREA, panel("1 1 1 0 0 5", LS_PANEL_ROOM - 1));
    CHECK(LS_REFUSED_AREA, panel("", 0));
}

/* ---- The version, and words ----------------------------------------------------------------- */

static void test_version(void)
{
    CHECK(LS_VERSION_MAJOR * 1000000 + LS_VERSION_MINOR * 1000 + LS_VERSION_PATCH, (int32_t)ls_version());
}

static void test_words(void)
{
    /* each status has words of its own, and no other number has */
    for (int32_t status = -5; status <= 13; status++) {
        const char *words = ls_status_text(status);
        int known = status >= LS_NOWHERE && status <= LS_REFUSED_WIDTH;
        CHECK(known, strcmp(words, ls_status_text(99)) != 0);
        for (int32_t other = LS_NOWHERE; known && other < status; other++)
            CHECK(1, strcmp(words, ls_status_text(other)) != 0);
    }
    CHECK(0, strcmp(ls_status_text(LS_REFUSED_PLANE), "plane above 5"));
}

int main(void)
{
    forget();
    test_refusals();
    test_direct_sums();
    test_loops();
    test_tables();
    test_agreement();
    test_session();
    test_looped_session();
    test_statistics();
    test_smoothing();
    test_steady();
    test_panel();
    test_version();
    test_words();
    printf("%d calls, %d failures\n", calls, failures);
    return failures != 0;
}
