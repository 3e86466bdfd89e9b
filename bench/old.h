// An earlier build of the library, for bench/run's OLD=ARCHIVE: its ls_ functions under the prefix old_, and under today's parameters.
// OLD_MAJOR is its major version, which bench/run asks of the archive. Where a prototype has changed since that version, the declaration here stays that of the earlier
// build, and the function below it passes on what both have. Else it has today's.
#ifndef OLD_H
#define OLD_H

#include "local_statistics.h"

#if OLD_MAJOR >= 2

extern "C" {
decltype(ls_direct_sum) old_ls_direct_sum;
decltype(ls_build) old_ls_build;
decltype(ls_read) old_ls_read;
decltype(ls_rows) old_ls_rows;
decltype(ls_smooth) old_ls_smooth;
decltype(ls_steady) old_ls_steady;
}

#else  // no columns_wrap: its columns clip

extern "C" {
int32_t old_ls_direct_sum(size_t rows, size_t columns, const int16_t *f, size_t f_length, const int16_t *g, size_t g_length, uint32_t shape, int32_t first, int32_t second, int32_t down, int32_t right, uint32_t plane, size_t row, size_t column,
                          int64_t *sum);
int32_t old_ls_build(size_t rows, size_t columns, const int16_t *f, size_t f_length, const int16_t *g, size_t g_length, int32_t down, int32_t right, uint32_t plane, int64_t *table, size_t table_length);
int32_t old_ls_read(size_t rows, size_t columns, const int64_t *table, size_t table_length, uint32_t shape, int32_t first, int32_t second, size_t row, size_t column, int64_t *sum);
int32_t old_ls_rows(size_t *position, size_t rows, size_t columns, const int16_t *f, size_t f_length, const int16_t *g, size_t g_length, uint32_t shape, int32_t first, int32_t second, int32_t down, int32_t right, uint32_t plane, size_t request,
                    int64_t *work, size_t work_length, int64_t *out, size_t out_length, size_t *granted);
int32_t old_ls_steady(size_t rows, size_t columns, const int16_t *f, size_t f_length, const int16_t *g, size_t g_length, uint32_t shape, int32_t first, int32_t second, int32_t down, int32_t right, size_t *row, size_t *column);
int32_t old_ls_smooth(size_t rows, size_t columns, const int16_t *f, size_t f_length, uint32_t shape, int32_t first, int32_t second, int16_t *out, size_t out_length);
}

inline int32_t old_ls_direct_sum(size_t rows, size_t columns, uint32_t, const int16_t *f, size_t f_length, const int16_t *g, size_t g_length, uint32_t shape, int32_t first, int32_t second, int32_t down, int32_t right, uint32_t plane, size_t row,
                                 size_t column, int64_t *sum) {
    return old_ls_direct_sum(rows, columns, f, f_length, g, g_length, shape, first, second, down, right, plane, row, column, sum);
}
inline int32_t old_ls_build(size_t rows, size_t columns, uint32_t, const int16_t *f, size_t f_length, const int16_t *g, size_t g_length, int32_t down, int32_t right, uint32_t plane, int64_t *table, size_t table_length) {
    return old_ls_build(rows, columns, f, f_length, g, g_length, down, right, plane, table, table_length);
}
inline int32_t old_ls_read(size_t rows, size_t columns, uint32_t, const int64_t *table, size_t table_length, uint32_t shape, int32_t first, int32_t second, size_t row, size_t column, int64_t *sum) {
    return old_ls_read(rows, columns, table, table_length, shape, first, second, row, column, sum);
}
inline int32_t old_ls_rows(size_t *position, size_t rows, size_t columns, uint32_t, const int16_t *f, size_t f_length, const int16_t *g, size_t g_length, uint32_t shape, int32_t first, int32_t second, int32_t down, int32_t right, uint32_t plane,
                           size_t request, int64_t *work, size_t work_length, int64_t *out, size_t out_length, size_t *granted) {
    return old_ls_rows(position, rows, columns, f, f_length, g, g_length, shape, first, second, down, right, plane, request, work, work_length, out, out_length, granted);
}
inline int32_t old_ls_steady(size_t rows, size_t columns, uint32_t, const int16_t *f, size_t f_length, const int16_t *g, size_t g_length, uint32_t shape, int32_t first, int32_t second, int32_t down, int32_t right, size_t *row, size_t *column) {
    return old_ls_steady(rows, columns, f, f_length, g, g_length, shape, first, second, down, right, row, column);
}
inline int32_t old_ls_smooth(size_t rows, size_t columns, uint32_t, const int16_t *f, size_t f_length, uint32_t shape, int32_t first, int32_t second, int16_t *out, size_t out_length) {
    return old_ls_smooth(rows, columns, f, f_length, shape, first, second, out, out_length);
}

#endif

#endif
