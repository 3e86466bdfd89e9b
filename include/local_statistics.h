/*
 * Local statistics of drawn pictures: the C interface.
 *
 * A picture has 1 to 256 rows of 1 to 1,024 signed 16-bit levels, row by row; rows and columns
 * count from 0. A window sits on a cell, and its sum ranges over those of its cells that count.
 * Document 01, "Local statistics of drawn pictures", says what every function computes, and change
 * 1 of document 02 what it computes where columns wrap; the functions are proved to answer so for
 * every input that keeps the rules below.
 *
 * WHAT COMES BACK. Every function returns a status:
 *
 *   LS_OK             it answered, and the answer is where the pointers point;
 *   LS_REFUSED_...    a condition holds under which the call is turned down. Each function names
 *                     its conditions in the order in which they are tried, and the first that
 *                     holds is the status. It is the order of their numbers, but for
 *                     LS_REFUSED_WIDTH, 11, which comes before 6, 7 and 8;
 *   LS_EMPTY, LS_FLAT, LS_NOWHERE
 *                     there is no such statistic, or no such cell.
 *
 * With any status but LS_OK nothing is written through any pointer.
 *
 * WHAT IS ASKED OF A CALLER. The functions cannot test the following, and promise nothing without it:
 *
 *   - A pointer with a length after it (f and f_length) points to so many elements, which stay
 *     where they are until the call returns. A pointer without one points to one element.
 *   - No pointer is NULL, and each is aligned for its type, also where the length is 0: pass the
 *     address of any object of the type. Nothing is read or written through it then.
 *   - What a call writes to, every area whose pointer is not const and every single result,
 *     overlaps with nothing else that the call is given. The areas it only reads may overlap:
 *     f and g may be one picture.
 *   - Nothing else writes to any of these while the call runs, nor reads what the call writes to.
 *
 * Everything else is tested: sizes, lengths, numbers and contents may be anything.
 *
 * MEMORY. The caller owns every area. A function keeps no pointer and no state from one call to
 * the next, allocates nothing, and calls nothing of the C library but, where the compiler so
 * chose, memcpy, memmove and memset. Every call returns.
 *
 * STACK. The work areas of a call are on the caller's stack. Measured on x86-64, as the older kit
 * rattle-kit-5b-plain built it: ls_steady takes up to 520 KiB of it, ls_smooth and ls_panel up to
 * 380 KiB, ls_rows up to 100 KiB, the others up to 24 KiB. Nothing is proved of it.
 *
 * THREADS. Any number of threads may call any functions at once, each with its own results and its
 * own areas to write to. Areas that are only read may be shared.
 */
#ifndef LOCAL_STATISTICS_H
#define LOCAL_STATISTICS_H

#include <stddef.h>
#include <stdint.h>

#ifdef __cplusplus
extern "C" {
#endif

/* ---- Version -------------------------------------------------------------------------------- */

/*
 * Semantic versioning: a major version where an answer changes or a call no longer compiles, a
 * minor one where something is new. ls_version gives the library's, as major * 1,000,000 +
 * minor * 1,000 + patch; a program may hold it against the header that it was compiled with.
 */
#define LS_VERSION_MAJOR 2
#define LS_VERSION_MINOR 0
#define LS_VERSION_PATCH 0

uint32_t ls_version(void);

/* ---- Statuses ------------------------------------------------------------------------------- */

/* No call gives LS_REFUSED_TEXT: it is the number in the line `refused 10` that ls_panel writes. */
#define LS_OK 0               /* answered */
#define LS_REFUSED_SIZE 1     /* rows or columns beyond limits */
#define LS_REFUSED_PICTURE 2  /* a picture's length is not rows times columns */
#define LS_REFUSED_WINDOW 3   /* shape not 1 to 3, or window numbers other than its shape allows */
#define LS_REFUSED_SHIFT 4    /* shift beyond limits */
#define LS_REFUSED_PLANE 5    /* plane above 5 */
#define LS_REFUSED_CELL 6     /* cell outside the picture */
#define LS_REFUSED_REQUEST 7  /* position above rows, or request above rows minus position */
#define LS_REFUSED_AREA 8     /* table, work or output area of another length */
#define LS_REFUSED_SUMS 9     /* sums impossible */
#define LS_REFUSED_TEXT 10    /* a number of panel's text is malformed, missing or too many */
#define LS_REFUSED_WIDTH 11   /* columns wrap, and the window's widest row is above columns */
#define LS_EMPTY (-1)         /* no cell counts: N is 0 */
#define LS_FLAT (-2)          /* no coefficient: all levels of f, or all of g, are equal */
#define LS_NOWHERE (-3)       /* no cell is steady */

/* ---- Shapes, planes, borders, voices -------------------------------------------------------- */

/*
 * A window on the cell (i, j) is a shape and two numbers, and holds the cells (i+p, j+q) with:
 *
 *   LS_RECTANGLE  |p| <= first and |q| <= second; each number from 0 to 127
 *   LS_DIAMOND    |p| + |q| <= first; first from 0 to 127, second 0
 *   LS_HEXAGON    |p| <= second and |p| + |q| <= first + second; neither below 0, together at most 127
 */
#define LS_RECTANGLE 1
#define LS_DIAMOND 2
#define LS_HEXAGON 3

/*
 * Two pictures f and g of one size stand under a shift: down from -255 to 255 rows, right from
 * -1,023 to 1,023 columns. At the cell (m, n) of f, g is read at (m+down, n+right). So if g shows
 * what f shows, drawn 3 rows lower and 5 columns further to the right, the two match under the
 * shift down = 3, right = 5. A cell (m, n) counts when it and (m+down, n+right) are both inside the
 * picture. A plane has a value at each cell that counts, and is 0 at every other. One picture
 * alone is the case g = f with shift (0, 0).
 */
#define LS_PLANE_ONE 0        /* 1 */
#define LS_PLANE_F 1          /* f(m, n) */
#define LS_PLANE_G 2          /* g(m+down, n+right) */
#define LS_PLANE_F_SQUARED 3  /* the square of plane 1 */
#define LS_PLANE_G_SQUARED 4  /* the square of plane 2 */
#define LS_PLANE_PRODUCT 5    /* the product of planes 1 and 2 */

/*
 * A looping picture joins its last column to its first. So each call that has columns takes
 * columns_wrap: with 0 the columns clip, as said above, and with any other number they wrap. Rows
 * clip always. Where columns wrap:
 *
 *   - A window goes on at the other end of a row: on (i, j) it holds the cells
 *     (i+p, (j+q) mod columns). It may not meet itself: its widest row must fit the columns, or the
 *     call is turned down with LS_REFUSED_WIDTH. The widest row has 2*second + 1 cells in a
 *     rectangle, 2*first + 1 in a diamond, and 2*(first + second) + 1 in a hexagon; it may be as
 *     wide as the picture, and its height is not asked.
 *   - g is read at (m+down, (n+right) mod columns), however often that goes round. So a cell (m, n)
 *     counts when row m+down is inside the picture.
 *
 * One number holds for all calls of a session, and for building a table and reading it.
 */

/* Kinds of voice. */
#define LS_STEADY 1
#define LS_GRAINY 2

/* ---- Limits --------------------------------------------------------------------------------- */

#define LS_MAX_ROWS 256
#define LS_MAX_COLUMNS 1024
#define LS_MAX_DOWN 255          /* of a shift, either way */
#define LS_MAX_RIGHT 1023        /* of a shift, either way */
#define LS_MAX_WINDOW 127        /* of a window's number; of a hexagon's two together */
#define LS_MAX_CELLS 65025       /* of a window: the largest N */
#define LS_PANEL_MAX_BYTES 65536 /* of panel's text */
#define LS_PANEL_MAX_CELLS 4096  /* of panel's picture */
#define LS_PANEL_ROOM 28672      /* bytes that hold the longest output of panel */

/* ---- Sums ----------------------------------------------------------------------------------- */

/*
 * The sum of the plane over the window on the cell (row, column), to *sum.
 * f and g: rows times columns levels each.
 * Refusals: LS_REFUSED_SIZE, _PICTURE, _WINDOW, _SHIFT, _PLANE, _WIDTH, _CELL.
 */
int32_t ls_direct_sum(size_t rows, size_t columns, uint32_t columns_wrap, const int16_t *f,
                      size_t f_length, const int16_t *g, size_t g_length, uint32_t shape,
                      int32_t first, int32_t second, int32_t down, int32_t right, uint32_t plane,
                      size_t row, size_t column, int64_t *sum);

/*
 * The cumulative table: at each cell (i, j), in place i times columns + j, the plane's sum over all
 * cells (p, q) with p <= i and q <= j. A table depends on no window; ls_read takes one. Where
 * columns wrap, only g is read round the edge.
 * f and g: rows times columns levels each. table: rows times columns numbers, all of them written.
 * Refusals: LS_REFUSED_SIZE, _PICTURE, _SHIFT, _PLANE, _AREA.
 */
int32_t ls_build(size_t rows, size_t columns, uint32_t columns_wrap, const int16_t *f,
                 size_t f_length, const int16_t *g, size_t g_length, int32_t down, int32_t right,
                 uint32_t plane, int64_t *table, size_t table_length);

/*
 * The sum over the window on the cell (row, column), from a table, to *sum. From a table as
 * ls_build left it, with the same columns_wrap, this is what ls_direct_sum gives; from any other
 * contents it is the same formula of the table's corners, with sums that wrap at 64 bits. Where
 * columns wrap, the columns past an edge are read as a rectangle of their own.
 * table: rows times columns numbers.
 * Refusals: LS_REFUSED_SIZE, _WINDOW, _WIDTH, _CELL, _AREA.
 */
int32_t ls_read(size_t rows, size_t columns, uint32_t columns_wrap, const int64_t *table,
                size_t table_length, uint32_t shape, int32_t first, int32_t second, size_t row,
                size_t column, int64_t *sum);

/*
 * The row session: the sums of the next `request` rows, row by row, to out; *position moves on by
 * request, and *granted is request.
 *
 * The position is the session: the number of rows granted so far. Set it to 0 to begin, and hand
 * it, the work area as the last call left it, and the same pictures, columns_wrap, window, shift
 * and plane to every call of the session. Then the rows written, call by call, are those of
 * ls_direct_sum; a refused call in between changes nothing. A session needs no end, and may be
 * copied together with its work area.
 *
 * At position 0 the work area is not read. Afterwards it holds, for a rectangle, the sums of the
 * columns over the window's rows, and for the others the last row of window sums; other contents
 * are taken by the same rule from row to row, with sums that wrap at 64 bits.
 * What a row costs. Over a rectangle every row costs the same, however large the window and the
 * request. Over a diamond or hexagon a call of two rows or more first goes through as many rows as
 * the window is high, and from then on its rows cost the same whatever the window; a call of one
 * row costs as many row steps as the window is high. So ask for many rows at once where the window
 * is large: 256 rows over a diamond of 127 take about 10 times as long by calls of 4 rows as by
 * one call.
 *
 * f and g: rows times columns levels each. work: columns numbers. out: request times columns
 * numbers, all of them written. A request of 0 is granted and changes nothing but *granted.
 * Refusals: LS_REFUSED_SIZE, _PICTURE, _WINDOW, _SHIFT, _PLANE, _WIDTH, _REQUEST, _AREA.
 */
int32_t ls_rows(size_t *position, size_t rows, size_t columns, uint32_t columns_wrap,
                const int16_t *f, size_t f_length, const int16_t *g, size_t g_length,
                uint32_t shape, int32_t first, int32_t second, int32_t down, int32_t right,
                uint32_t plane, size_t request, int64_t *work, size_t work_length, int64_t *out,
                size_t out_length, size_t *granted);

/* ---- Statistics ----------------------------------------------------------------------------- */

/*
 * These take the six sums of planes 0 to 5 at one cell, N, S, T, A, B and P. With Vf = N*A - S*S,
 * Vg = N*B - T*T and C = N*P - S*T, six sums are impossible, LS_REFUSED_SUMS, where N is above
 * 65,025 or negative; |S| or |T| above 32,768*N; A or B negative or above 2^30*N; |P| above 2^30*N;
 * Vf or Vg negative; or C*C above Vf*Vg. The six sums of a picture never are. One picture alone
 * has T = S and B = P = A, or 0 for all three where only f is asked about.
 */

/*
 * The mean of f: the whole number nearest S/N, a half going up.
 * Refusal: LS_REFUSED_SUMS. LS_EMPTY where N is 0.
 */
int32_t ls_mean(int64_t n, int64_t s, int64_t t, int64_t a, int64_t b, int64_t p, int64_t *mean);

/*
 * The variance of f: the whole number nearest Vf/(N*N), a half going up.
 * Refusal: LS_REFUSED_SUMS. LS_EMPTY where N is 0.
 */
int32_t ls_variance(int64_t n, int64_t s, int64_t t, int64_t a, int64_t b, int64_t p,
                    int64_t *variance);

/*
 * The deviation of f: the largest whole d with d*d*N*N <= Vf.
 * Refusal: LS_REFUSED_SUMS. LS_EMPTY where N is 0.
 */
int32_t ls_deviation(int64_t n, int64_t s, int64_t t, int64_t a, int64_t b, int64_t p,
                     int64_t *deviation);

/*
 * The coefficient of f and g in thousandths, from -1,000 to 1,000: the sign of C times the largest
 * whole c with c*c*Vf*Vg <= 1,000,000*C*C.
 * Refusal: LS_REFUSED_SUMS. LS_EMPTY where N is 0; LS_FLAT where Vf or Vg is 0.
 */
int32_t ls_coefficient(int64_t n, int64_t s, int64_t t, int64_t a, int64_t b, int64_t p,
                       int64_t *coefficient);

/*
 * The voice of f. *kind is LS_STEADY where Vf is 0, and *spread is then 0; otherwise it is
 * LS_GRAINY. *level is the mean over 32,768 and *spread the deviation over 32,768; both are exact,
 * zero is positive zero, and a Grainy spread may be 0.
 * Refusal: LS_REFUSED_SUMS. LS_EMPTY where N is 0.
 */
int32_t ls_voice(int64_t n, int64_t s, int64_t t, int64_t a, int64_t b, int64_t p, uint32_t *kind,
                 float *level, float *spread);

/* ---- Smoothing, the steady cell, panel ------------------------------------------------------ */

/*
 * The mean of f over the window at every cell, to out.
 * f: rows times columns levels. out: rows times columns levels, all of them written.
 * Refusals: LS_REFUSED_SIZE, _PICTURE, _WINDOW, _WIDTH, _AREA.
 */
int32_t ls_smooth(size_t rows, size_t columns, uint32_t columns_wrap, const int16_t *f,
                  size_t f_length, uint32_t shape, int32_t first, int32_t second, int16_t *out,
                  size_t out_length);

/*
 * The first cell, row by row, whose voice is Steady, to *row and *column.
 * f and g: rows times columns levels each.
 * Refusals: LS_REFUSED_SIZE, _PICTURE, _WINDOW, _SHIFT, _WIDTH. LS_NOWHERE where no cell is steady.
 */
int32_t ls_steady(size_t rows, size_t columns, uint32_t columns_wrap, const int16_t *f,
                  size_t f_length, const int16_t *g, size_t g_length, uint32_t shape,
                  int32_t first, int32_t second, int32_t down, int32_t right, size_t *row,
                  size_t *column);

/*
 * What the program panel prints for a text, to the front of out; *written is the count of its
 * bytes, and the bytes after them keep their contents. No byte 0 is added.
 *
 * The text has decimal numbers divided by spaces, tabs and line feeds: rows, columns, shape, the
 * two window numbers, then the levels; at most 4,096 cells and 65,536 bytes. The output is the
 * smoothed picture, one line a row; its columns never wrap. A text that is refused is answered too:
 * its output is the one line `refused N`, where N is LS_REFUSED_TEXT, LS_REFUSED_SIZE or
 * LS_REFUSED_WINDOW.
 * text: any length. out: LS_PANEL_ROOM bytes or more.
 * Refusal: LS_REFUSED_AREA where out has fewer than LS_PANEL_ROOM bytes.
 */
int32_t ls_panel(const uint8_t *text, size_t text_length, uint8_t *out, size_t out_length,
                 size_t *written);

/* ---- Words for a status --------------------------------------------------------------------- */

/* What a status says, for messages; it is no part of the archive. */
static inline const char *ls_status_text(int32_t status)
{
    switch (status) {
    case LS_OK:
        return "answered";
    case LS_REFUSED_SIZE:
        return "rows or columns beyond limits";
    case LS_REFUSED_PICTURE:
        return "a picture's length is not rows times columns";
    case LS_REFUSED_WINDOW:
        return "shape not 1 to 3, or window numbers other than its shape allows";
    case LS_REFUSED_SHIFT:
        return "shift beyond limits";
    case LS_REFUSED_PLANE:
        return "plane above 5";
    case LS_REFUSED_CELL:
        return "cell outside the picture";
    case LS_REFUSED_REQUEST:
        return "position above rows, or request above rows minus position";
    case LS_REFUSED_AREA:
        return "table, work or output area of another length";
    case LS_REFUSED_SUMS:
        return "sums impossible";
    case LS_REFUSED_TEXT:
        return "a number of panel's text is malformed, missing or too many";
    case LS_REFUSED_WIDTH:
        return "columns wrap, and the window's widest row is above columns";
    case LS_EMPTY:
        return "no cell counts: N is 0";
    case LS_FLAT:
        return "no coefficient: all levels of f, or all of g, are equal";
    case LS_NOWHERE:
        return "no cell is steady";
    default:
        return "no status of this library";
    }
}

#ifdef __cplusplus
}
#endif

#endif
