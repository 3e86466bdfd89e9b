// Times the library beside OpenCV, plain Rust, the copying of the same bytes and, with WITH_OLD, an earlier build of itself. All on one thread; those
// that are compared take turns in every round, and the best and the middle time of each are kept. Before anything is timed the results are compared.
// Writes a page of ratios and a plot: bench PAGE PLOT, with facts about the machine in the environment.
#include <algorithm>
#include <chrono>
#include <cmath>
#include <cstdint>
#include <cstdio>
#include <cstdlib>
#include <cstring>
#include <fstream>
#include <functional>
#include <string>
#include <vector>

#include "local_statistics.h"

#ifdef WITH_OLD
#include "old.h"
#endif

#ifdef WITH_OPENCV
#include <opencv2/core.hpp>
#include <opencv2/imgproc.hpp>
#endif

// bench/plain.rs
extern "C" {
void plain_build(size_t rows, size_t columns, const int16_t *f, int64_t *table);
int64_t plain_read(size_t rows, size_t columns, const int64_t *table, uint32_t shape, size_t first, size_t second, size_t row, size_t column);
int64_t plain_direct_sum(size_t rows, size_t columns, const int16_t *f, uint32_t shape, size_t first, size_t second, size_t row, size_t column);
void plain_rectangle(size_t rows, size_t columns, const int16_t *f, size_t a, size_t b, bool squares, int64_t *work, int64_t *out);
void plain_products(size_t rows, size_t columns, const int16_t *f, const int16_t *g, size_t down, size_t right, size_t a, size_t b, int64_t *work, int64_t *out);
void plain_slanted(size_t rows, size_t columns, const int16_t *f, size_t k, size_t h, int64_t *work, int64_t *out);
void plain_smooth(size_t rows, size_t columns, const int16_t *f, size_t a, size_t b, int16_t *out);
size_t plain_steady(size_t rows, size_t columns, const int16_t *f, size_t a, size_t b);
}

namespace {

constexpr size_t ROWS = 256, COLUMNS = 1024, CELLS = ROWS * COLUMNS;

std::vector<int16_t> picture(CELLS), other_picture(CELLS);
std::vector<int64_t> work(COLUMNS), sums(CELLS), rival(CELLS), table(CELLS), copied(CELLS);
std::vector<int16_t> means(CELLS), rival_means(CELLS);

[[noreturn]] void fail(const std::string &what) {
    std::fprintf(stderr, "bench: %s\n", what.c_str());
    std::exit(1);
}

void granted(int32_t status, const char *call) {
    if (status != LS_OK) fail(std::string(call) + " was refused with " + std::to_string(status));
}

void equal(const std::string &what, const std::vector<int64_t> &a, const std::vector<int64_t> &b) {
    for (size_t k = 0; k < CELLS; k++)
        if (a[k] != b[k]) fail(what + ": cell " + std::to_string(k) + " has " + std::to_string(a[k]) + " and " + std::to_string(b[k]));
}

struct Window {
    uint32_t shape;
    int32_t first, second;
};

size_t unsigned_of(int32_t x) { return static_cast<size_t>(x); }

// A build of the library: its functions that are timed.
struct Library {
    decltype(&ls_direct_sum) direct_sum;
    decltype(&ls_build) build;
    decltype(&ls_read) read;
    decltype(&ls_rows) rows;
    decltype(&ls_smooth) smooth;
    decltype(&ls_steady) steady;
};

const Library NOW = {ls_direct_sum, ls_build, ls_read, ls_rows, ls_smooth, ls_steady};
#ifdef WITH_OLD
const Library OLD = {old_ls_direct_sum, old_ls_build, old_ls_read, old_ls_rows, old_ls_smooth, old_ls_steady};
#endif

struct Shift {
    int32_t down, right;
};

// What columns_wrap is where the columns clip, as they do in all comparisons but those of the section on columns that wrap, and where they wrap.
constexpr uint32_t CLIPPED = 0, WRAPPED = 1;

// The sums of the two pictures, by calls of n rows each.
void library_two(const Library &l, uint32_t border, Window w, Shift d, uint32_t plane, const int16_t *g, size_t n, std::vector<int64_t> &out) {
    size_t position = 0, count = 0;
    while (position < ROWS)
        granted(l.rows(&position, ROWS, COLUMNS, border, picture.data(), CELLS, g, CELLS, w.shape, w.first, w.second, d.down, d.right, plane, n, work.data(),
                       COLUMNS, out.data() + position * COLUMNS, n * COLUMNS, &count),
                "ls_rows");
}

// The whole picture's sums, by calls of n rows each.
void library_rows(const Library &l, Window w, uint32_t plane, size_t n, std::vector<int64_t> &out) { library_two(l, CLIPPED, w, {0, 0}, plane, picture.data(), n, out); }

// The table of the two pictures.
void library_build_two(const Library &l, uint32_t border, Shift d, uint32_t plane, const int16_t *g, std::vector<int64_t> &out) {
    granted(l.build(ROWS, COLUMNS, border, picture.data(), CELLS, g, CELLS, d.down, d.right, plane, out.data(), CELLS), "ls_build");
}

void library_build(const Library &l, std::vector<int64_t> &out) { library_build_two(l, CLIPPED, {0, 0}, LS_PLANE_F, picture.data(), out); }

int64_t library_direct(const Library &l, uint32_t border, Window w, size_t i, size_t j) {
    int64_t s = 0;
    granted(l.direct_sum(ROWS, COLUMNS, border, picture.data(), CELLS, picture.data(), CELLS, w.shape, w.first, w.second, 0, 0, LS_PLANE_F, i, j, &s), "ls_direct_sum");
    return s;
}

int64_t library_read(const Library &l, uint32_t border, Window w, size_t i, size_t j) {
    int64_t s = 0;
    granted(l.read(ROWS, COLUMNS, border, table.data(), CELLS, w.shape, w.first, w.second, i, j, &s), "ls_read");
    return s;
}

void library_smooth(const Library &l, uint32_t border, Window w) {
    granted(l.smooth(ROWS, COLUMNS, border, picture.data(), CELLS, w.shape, w.first, w.second, means.data(), CELLS), "ls_smooth");
}

// The picture has no steady cell, so the search goes through all of it.
void library_steady(const Library &l, Window w) {
    size_t row = 0, column = 0;
    const int32_t status = l.steady(ROWS, COLUMNS, CLIPPED, picture.data(), CELLS, picture.data(), CELLS, w.shape, w.first, w.second, 0, 0, &row, &column);
    if (status != LS_NOWHERE) fail("ls_steady answered " + std::to_string(status));
}

// ---- measuring

using Clock = std::chrono::steady_clock;

struct Timed {
    double best, middle;
};

// In each round each runs twice, in turn, and the second time counts: what the others left in the caches is gone then. Every other round goes from
// the last to the first, so that none always comes after the same one.
std::vector<Timed> in_turn(size_t rounds, const std::vector<std::function<void()>> &runs) {
    std::vector<std::vector<double>> times(runs.size());
    for (size_t r = 0; r < rounds; r++)
        for (size_t step = 0; step < runs.size(); step++) {
            const size_t k = r % 2 == 0 ? step : runs.size() - 1 - step;
            runs[k]();
            const auto start = Clock::now();
            runs[k]();
            times[k].push_back(std::chrono::duration<double>(Clock::now() - start).count());
        }
    std::vector<Timed> result;
    for (auto &t : times) {
        std::sort(t.begin(), t.end());
        result.push_back({t.front(), t[t.size() / 2]});
    }
    return result;
}

// What is timed together, each by its place. Something that this library does has beside it the same by the earlier build, where there is one.
struct Runs {
    std::vector<std::function<void()>> all;
    std::vector<size_t> before;  // the place of the earlier build's run, or its own
    std::vector<Timed> times;

    size_t other(const std::function<void()> &run) {
        all.push_back(run);
        before.push_back(all.size() - 1);
        return all.size() - 1;
    }
    size_t ours(const std::function<void(const Library &)> &run) {
        const size_t place = other([=] { run(NOW); });
#ifdef WITH_OLD
        before[place] = other([=] { run(OLD); });
#endif
        return place;
    }
    void measure(size_t rounds) { times = in_turn(rounds, all); }
};

void copy_sums() { std::memcpy(copied.data(), sums.data(), CELLS * sizeof(int64_t)); }

void copy_means() { std::memcpy(copied.data(), means.data(), CELLS * sizeof(int16_t)); }

// ---- the page

std::string page;

// The section's title, the lines so far on which OpenCV or plain Rust is the faster one, and the absolute times.
std::string titled, slower, absolute;

std::string number(double x) {
    char text[32];
    std::snprintf(text, sizeof text, x >= 99.5 ? "%.0f" : x >= 9.95 ? "%.1f" : "%.2f", x);
    return text;
}

#ifdef WITH_OLD
const bool with_old = true;
#else
const bool with_old = false;
#endif

void section(const std::string &title, const std::string &text) {
    titled = title;
    page += "\n## " + title + "\n\n" + text + "\n\n| What | Beside | Best times | Middle times |" + (with_old ? " Before |" : "") + "\n|---|---|---|---|" + (with_old ? "---|" : "") + "\n";
}

void row(const std::string &what, const std::string &beside, const Runs &r, size_t ours, size_t theirs) {
    const Timed us = r.times[ours], them = r.times[theirs], before = r.times[r.before[ours]];
    const std::string line =
        "| " + what + " | " + beside + " | " + number(them.best / us.best) + " | " + number(them.middle / us.middle) + " |" + (with_old ? " " + number(before.best / us.best) + " |" : "");
    std::printf("%s\n", line.c_str());
    std::fflush(stdout);
    page += line + "\n";
    const bool rivals = beside == "plain Rust" || beside.rfind("`cv::", 0) == 0;
    if (rivals && them.best < us.best) slower += "| " + titled + " | " + what + " | " + beside + " | " + number(them.best / us.best) + " |\n";
}

// The best time of one call, or of each of so many.
void absolutely(const std::string &what, const Runs &r, size_t ours, double calls = 1) {
    const double seconds = r.times[ours].best / calls;
    const bool small = seconds < 1e-5;
    absolute += "| " + what + " | " + number(seconds * (small ? 1e9 : 1e3)) + (small ? " ns" : " ms") + " |\n";
}

std::string square(int32_t half) { return std::to_string(2 * half + 1) + " × " + std::to_string(2 * half + 1); }

std::string name_of(Window w) {
    if (w.shape == LS_RECTANGLE) return square(w.first);
    return w.shape == LS_DIAMOND ? "diamond " + std::to_string(w.first) : "hexagon " + std::to_string(w.first) + ", " + std::to_string(w.second);
}

const std::vector<int32_t> HALVES = {1, 3, 7, 15, 31, 63, 127};

#ifdef WITH_OPENCV
cv::Mat levels() { return cv::Mat(ROWS, COLUMNS, CV_16S, picture.data()); }

void equal_mat(const std::string &what, const std::vector<int64_t> &a, const cv::Mat &m, double within = 0) {
    cv::Mat d;
    m.convertTo(d, CV_64F);
    for (size_t i = 0; i < ROWS; i++)
        for (size_t j = 0; j < COLUMNS; j++)
            if (std::abs(static_cast<double>(a[i * COLUMNS + j]) - d.at<double>(static_cast<int>(i), static_cast<int>(j))) > within) fail(what + ": results differ");
}

cv::Mat kernel_of(Window w, int type) {
    const int reach = w.shape == LS_DIAMOND ? w.first : w.first + w.second, high = w.shape == LS_DIAMOND ? w.first : w.second;
    cv::Mat k = cv::Mat::zeros(2 * high + 1, 2 * reach + 1, type);
    for (int p = -high; p <= high; p++)
        for (int q = -reach; q <= reach; q++)
            if (std::abs(p) + std::abs(q) <= reach) {
                if (type == CV_64F)
                    k.at<double>(p + high, q + reach) = 1;
                else
                    k.at<float>(p + high, q + reach) = 1;
            }
    return k;
}
#endif

void tables() {
    section("The table", "Building, plane 1, no shift; `cv::integral` goes from CV_16S to CV_64F and writes a row and a column more, and the copy is that of the table's bytes.");
    library_build(NOW, table);
    plain_build(ROWS, COLUMNS, picture.data(), rival.data());
    equal("table", table, rival);
    Runs r;
    const size_t build = r.ours([](const Library &l) { library_build(l, table); });
    const size_t plain = r.other([] { plain_build(ROWS, COLUMNS, picture.data(), rival.data()); });
    const size_t copy = r.other(copy_sums);
#ifdef WITH_OPENCV
    static cv::Mat integral;
    cv::integral(levels(), integral, CV_64F);
    equal_mat("cv::integral", table, integral(cv::Rect(1, 1, COLUMNS, ROWS)).clone());
    const size_t opencv = r.other([] { cv::integral(levels(), integral, CV_64F); });
#endif
    r.measure(600);
#ifdef WITH_OPENCV
    row("`ls_build`", "`cv::integral`", r, build, opencv);
#endif
    row("`ls_build`", "plain Rust", r, build, plain);
    row("`ls_build`", "the copy", r, build, copy);
    absolutely("`ls_build`: freeze the picture", r, build);
}

void rectangles(uint32_t plane, const std::string &title, const std::string &text) {
    section(title, text);
    for (int32_t half : HALVES) {
        const Window w = {LS_RECTANGLE, half, half};
        const bool squares = plane == LS_PLANE_F_SQUARED;
        library_rows(NOW, w, plane, ROWS, sums);
        plain_rectangle(ROWS, COLUMNS, picture.data(), unsigned_of(half), unsigned_of(half), squares, work.data(), rival.data());
        equal("rectangle " + square(half), sums, rival);
        for (size_t n : {16, 4, 1}) {
            library_rows(NOW, w, plane, n, rival);
            equal("calls of " + std::to_string(n), sums, rival);
        }
        Runs r;
        const size_t one = r.ours([=](const Library &l) { library_rows(l, w, plane, ROWS, sums); });
        const size_t plain = r.other([=] { plain_rectangle(ROWS, COLUMNS, picture.data(), unsigned_of(half), unsigned_of(half), squares, work.data(), rival.data()); });
        const size_t copy = r.other(copy_sums);
#ifdef WITH_OPENCV
        static cv::Mat to64, to32;
        const cv::Size size(2 * half + 1, 2 * half + 1);
        const auto box64 = [=] {
            if (squares)
                cv::sqrBoxFilter(levels(), to64, CV_64F, size, cv::Point(-1, -1), false, cv::BORDER_CONSTANT);
            else
                cv::boxFilter(levels(), to64, CV_64F, size, cv::Point(-1, -1), false, cv::BORDER_CONSTANT);
        };
        box64();
        equal_mat("OpenCV to 64F", sums, to64);
        const size_t opencv = r.other(box64);
        size_t opencv32 = opencv;
        std::vector<std::pair<size_t, size_t>> calls;  // of so many rows, and the place of their run
        if (!squares) {
            for (size_t n : {16, 4, 1}) calls.push_back({n, r.ours([=](const Library &l) { library_rows(l, w, plane, n, sums); })});
            const auto box32 = [=] { cv::boxFilter(levels(), to32, CV_32S, size, cv::Point(-1, -1), false, cv::BORDER_CONSTANT); };
            box32();
            equal_mat("OpenCV to 32S", sums, to32);
            opencv32 = r.other(box32);
        }
#endif
        r.measure(120);
        const std::string name = square(half);
#ifdef WITH_OPENCV
        if (squares) {
            row(name, "`cv::sqrBoxFilter` to CV_64F", r, one, opencv);
        } else {
            row(name + ", one call", "`cv::boxFilter` to CV_64F", r, one, opencv);
            row(name + ", one call", "`cv::boxFilter` to CV_32S", r, one, opencv32);
            for (const auto &[n, place] : calls) row(name + ", calls of " + std::to_string(n) + (n == 1 ? " row" : " rows"), "`cv::boxFilter` to CV_64F", r, place, opencv);
        }
#endif
        row(name + ", one call", "plain Rust", r, one, plain);
        row(name + ", one call", "the copy", r, one, copy);
        if (!squares && (half == 1 || half == 127)) absolutely("`ls_rows`: all rows by one call, rectangle " + name, r, one);
    }
}

// Products of two pictures; OpenCV multiplies them first, to 64-bit floats. Under a shift it has no like.
void products() {
    section("Sums of products over rectangles", "Plane 5 of two pictures; `cv::multiply` to CV_64F and `cv::boxFilter` are timed together. The shift is 3 rows down and 40 columns to the right.");
    for (int32_t half : HALVES) {
        const Window w = {LS_RECTANGLE, half, half};
        const std::string name = square(half);
        for (Shift d : {Shift{0, 0}, Shift{3, 40}}) {
            const bool shifted = d.right > 0;
            const auto library = [=](const Library &l, size_t n, std::vector<int64_t> &out) { library_two(l, CLIPPED, w, d, LS_PLANE_PRODUCT, other_picture.data(), n, out); };
            const auto plain_rust = [=] {
                plain_products(ROWS, COLUMNS, picture.data(), other_picture.data(), unsigned_of(d.down), unsigned_of(d.right), unsigned_of(half), unsigned_of(half), work.data(), rival.data());
            };
            library(NOW, ROWS, sums);
            plain_rust();
            equal("products " + name, sums, rival);
            library(NOW, 1, rival);
            equal("products by single rows", sums, rival);
            Runs r;
            const size_t one = r.ours([=](const Library &l) { library(l, ROWS, sums); });
            const size_t single = r.ours([=](const Library &l) { library(l, 1, sums); });
            const size_t plain = r.other(plain_rust);
#ifdef WITH_OPENCV
            static cv::Mat product, to64;
            const cv::Mat other(ROWS, COLUMNS, CV_16S, other_picture.data());
            const auto box64 = [=] {
                cv::multiply(levels(), other, product, 1, CV_64F);
                cv::boxFilter(product, to64, CV_64F, cv::Size(2 * half + 1, 2 * half + 1), cv::Point(-1, -1), false, cv::BORDER_CONSTANT);
            };
            if (!shifted) {
                box64();
                equal_mat("OpenCV's products", sums, to64);
            }
            const size_t opencv = shifted ? one : r.other(box64);
#endif
            r.measure(60);
#ifdef WITH_OPENCV
            if (!shifted) row(name + ", one call", "`cv::multiply`, `cv::boxFilter`", r, one, opencv);
#endif
            row(name + (shifted ? ", shifted, one call" : ", one call"), "plain Rust", r, one, plain);
            row(name + (shifted ? ", shifted, calls of 1 row" : ", calls of 1 row"), "plain Rust", r, single, plain);
        }
    }
}

void slanted() {
    section("Diamonds and hexagons",
            "Row sums, plane 1, one call of 256 rows; `cv::filter2D` has the shape as its kernel (large ones go through a Fourier transform, and agree within a millionth of the largest sum, 32-bit floats within a thousandth), and plain Rust adds and drops the edges' cells.");
    for (const Window w : {Window{LS_DIAMOND, 2, 0}, Window{LS_DIAMOND, 4, 0}, Window{LS_DIAMOND, 8, 0}, Window{LS_DIAMOND, 16, 0}, Window{LS_DIAMOND, 32, 0}, Window{LS_DIAMOND, 64, 0}, Window{LS_DIAMOND, 127, 0}, Window{LS_HEXAGON, 4, 4},
                          Window{LS_HEXAGON, 16, 16}, Window{LS_HEXAGON, 63, 64}}) {
        const bool diamond = w.shape == LS_DIAMOND;
        const size_t k = diamond ? 0 : unsigned_of(w.first), h = diamond ? unsigned_of(w.first) : unsigned_of(w.second);
        library_rows(NOW, w, LS_PLANE_F, ROWS, sums);
        plain_slanted(ROWS, COLUMNS, picture.data(), k, h, work.data(), rival.data());
        equal("slanted window", sums, rival);
        Runs r;
        const size_t one = r.ours([=](const Library &l) { library_rows(l, w, LS_PLANE_F, ROWS, sums); });
        const size_t small = r.other([=] { library_rows(NOW, {LS_RECTANGLE, 1, 1}, LS_PLANE_F, ROWS, rival); });
        const size_t plain = r.other([=] { plain_slanted(ROWS, COLUMNS, picture.data(), k, h, work.data(), rival.data()); });
        const size_t fours = r.ours([=](const Library &l) { library_rows(l, w, LS_PLANE_F, 4, sums); });
        const size_t around = r.other([=] { library_rows(NOW, {LS_RECTANGLE, static_cast<int32_t>(h), static_cast<int32_t>(k + h)}, LS_PLANE_F, ROWS, rival); });
#ifdef WITH_OPENCV
        static cv::Mat to64, to32, floats;
        levels().convertTo(floats, CV_32F);
        const cv::Mat kernel64 = kernel_of(w, CV_64F), kernel32 = kernel_of(w, CV_32F);
        const auto filter64 = [=] { cv::filter2D(levels(), to64, CV_64F, kernel64, cv::Point(-1, -1), 0, cv::BORDER_CONSTANT); };
        const auto filter32 = [=] { cv::filter2D(floats, to32, CV_32F, kernel32, cv::Point(-1, -1), 0, cv::BORDER_CONSTANT); };
        const double largest = static_cast<double>(*std::max_element(sums.begin(), sums.end()));
        filter64();
        equal_mat("cv::filter2D to 64F", sums, to64, 1e-6 * largest);
        filter32();
        equal_mat("cv::filter2D to 32F", sums, to32, 1e-3 * largest);
        const size_t opencv64 = r.other(filter64), opencv32 = r.other(filter32);
#endif
        r.measure(h > 40 ? 30 : 60);
        const std::string name = name_of(w);
#ifdef WITH_OPENCV
        row(name, "`cv::filter2D`, 16S to 64F", r, one, opencv64);
        row(name, "`cv::filter2D`, 32F", r, one, opencv32);
#endif
        row(name, "plain Rust", r, one, plain);
        row(name, "itself by calls of 4 rows", r, one, fours);
        row(name + ", calls of 4 rows", "plain Rust", r, fours, plain);
        row(name, "rectangle 3 × 3", r, one, small);
        row(name, "rectangle as high and as wide", r, one, around);
        if (h == 2 || h == 127) absolutely("`ls_rows`: all rows by one call, " + name, r, one);
        if (h == 127) absolutely("`ls_rows`: all rows by calls of 4, " + name, r, fours);
    }
}

void smoothing() {
    section("Smoothing", "`ls_smooth` beside normalised `cv::boxFilter` from CV_16S to CV_16S, which divides by the whole window at the border too; the results are equal at all cells whose window lies inside the picture.");
    for (int32_t half : HALVES) {
        const Window w = {LS_RECTANGLE, half, half};
        library_smooth(NOW, CLIPPED, w);
        plain_smooth(ROWS, COLUMNS, picture.data(), unsigned_of(half), unsigned_of(half), rival_means.data());
        if (means != rival_means) fail("smoothing differs from plain Rust");
        Runs r;
        const size_t ours = r.ours([=](const Library &l) { library_smooth(l, CLIPPED, w); });
        const size_t plain = r.other([=] { plain_smooth(ROWS, COLUMNS, picture.data(), unsigned_of(half), unsigned_of(half), rival_means.data()); });
        const size_t copy = r.other(copy_means);
#ifdef WITH_OPENCV
        static cv::Mat out;
        const auto box = [=] { cv::boxFilter(levels(), out, CV_16S, cv::Size(2 * half + 1, 2 * half + 1), cv::Point(-1, -1), true, cv::BORDER_CONSTANT); };
        box();
        for (size_t i = unsigned_of(half); i + unsigned_of(half) < ROWS; i++)
            for (size_t j = unsigned_of(half); j + unsigned_of(half) < COLUMNS; j++)
                if (out.at<int16_t>(static_cast<int>(i), static_cast<int>(j)) != means[i * COLUMNS + j]) fail("smoothing differs from OpenCV");
        const size_t opencv = r.other(box);
#endif
        r.measure(100);
#ifdef WITH_OPENCV
        row(square(half), "`cv::boxFilter`, normalised", r, ours, opencv);
#endif
        row(square(half), "plain Rust", r, ours, plain);
        row(square(half), "the copy", r, ours, copy);
        if (half == 7) absolutely("`ls_smooth`: smooth the picture, 15 × 15", r, ours);
    }
}

void searching() {
    section("The steady search", "`ls_steady` over one picture that has no steady cell, so that all of it is searched.");
    for (int32_t half : HALVES) {
        const Window w = {LS_RECTANGLE, half, half};
        library_steady(NOW, w);
        if (plain_steady(ROWS, COLUMNS, picture.data(), unsigned_of(half), unsigned_of(half)) != CELLS) fail("plain Rust found a steady cell");
        static size_t found;
        Runs r;
        const size_t ours = r.ours([=](const Library &l) { library_steady(l, w); });
        const size_t plain = r.other([=] { found = plain_steady(ROWS, COLUMNS, picture.data(), unsigned_of(half), unsigned_of(half)); });
        r.measure(40);
        if (found != CELLS) fail("plain Rust found a steady cell");
        row(square(half), "plain Rust", r, ours, plain);
        if (half == 1) absolutely("`ls_steady`: search the picture, 3 × 3", r, ours);
    }
}

// What f gives at 1,000 cells all over the picture, added.
int64_t each(const std::function<int64_t(size_t, size_t)> &f) {
    int64_t s = 0;
    for (size_t k = 0; k < 1000; k++) s += f(k * 7919 % ROWS, k * 104729 % COLUMNS);
    return s;
}

void single_cells() {
    section("Single cells", "Direct sums and table readings at 1,000 cells all over the picture, beside plain Rust, which checks nothing.");
    library_build(NOW, table);
    for (const Window w : {Window{LS_RECTANGLE, 1, 1}, Window{LS_RECTANGLE, 7, 7}, Window{LS_RECTANGLE, 127, 127}, Window{LS_DIAMOND, 7, 0}, Window{LS_DIAMOND, 127, 0}, Window{LS_HEXAGON, 63, 64}}) {
        static int64_t total, other;
        const auto direct = [=](const Library &l) { total = each([=](size_t i, size_t j) { return library_direct(l, CLIPPED, w, i, j); }); };
        const auto read = [=](const Library &l) { total = each([=](size_t i, size_t j) { return library_read(l, CLIPPED, w, i, j); }); };
        const auto plain_direct = [=] { other = each([=](size_t i, size_t j) { return plain_direct_sum(ROWS, COLUMNS, picture.data(), w.shape, unsigned_of(w.first), unsigned_of(w.second), i, j); }); };
        const auto plain_reading = [=] { other = each([=](size_t i, size_t j) { return plain_read(ROWS, COLUMNS, table.data(), w.shape, unsigned_of(w.first), unsigned_of(w.second), i, j); }); };
        direct(NOW);
        const int64_t sum = total;
        Runs r;
        const size_t directly = r.ours(direct), plainly = r.other(plain_direct), by_table = r.ours(read), plainly_by_table = r.other(plain_reading);
        for (const auto &run : r.all) {
            total = other = sum;
            run();
            if (total != sum || other != sum) fail("single cells differ");
        }
        r.measure(w.first > 40 ? 60 : 400);
        const std::string name = name_of(w);
        row("`ls_direct_sum`, " + name, "plain Rust", r, directly, plainly);
        row("`ls_read`, " + name, "plain Rust", r, by_table, plainly_by_table);
        if (w.first == 7 && w.shape == LS_RECTANGLE) {
            absolutely("`ls_direct_sum`: one cell, 15 × 15", r, directly, 1000);
            absolutely("`ls_read`: one cell from the table, 15 × 15", r, by_table, 1000);
        }
    }
}

// Columns that clip, and beside them the same call with columns that wrap.
void border_row(const std::string &what, size_t rounds, const std::function<void(const Library &, uint32_t)> &run) {
    Runs r;
    const size_t clipped = r.ours([=](const Library &l) { run(l, CLIPPED); });
    const size_t wrapped = r.other([=] { run(NOW, WRAPPED); });
    r.measure(rounds);
    row(what, "itself, columns that wrap", r, clipped, wrapped);
}

// The sums over a window where columns wrap, by rows, from a table and by single rows.
void agree_wrapped(Window w, Shift d, uint32_t plane, const int16_t *g) {
    library_two(NOW, WRAPPED, w, d, plane, g, ROWS, sums);
    library_two(NOW, WRAPPED, w, d, plane, g, 1, rival);
    equal(name_of(w) + " by single rows, columns that wrap", sums, rival);
    library_build_two(NOW, WRAPPED, d, plane, g, table);
    for (size_t k = 0; k < CELLS; k++) rival[k] = library_read(NOW, WRAPPED, w, k / COLUMNS, k % COLUMNS);
    equal(name_of(w) + " read, columns that wrap", sums, rival);
}

// Document 02's change 1: the switch on beside the switch off.
void borders() {
    section("Columns that wrap",
            "Each call with columns that clip beside the same call with columns that wrap: the ratio is how many times as long the second takes. Plane 1 is of one picture, plane 5 of two under a shift of 3 rows and 40 columns. Rows are summed by one call of 256 rows; direct sums and readings are at 1,000 cells.");
    const std::vector<Window> windows = {{LS_RECTANGLE, 1, 1}, {LS_RECTANGLE, 7, 7}, {LS_RECTANGLE, 127, 127}, {LS_DIAMOND, 2, 0}, {LS_DIAMOND, 16, 0}, {LS_DIAMOND, 127, 0}};
    for (uint32_t plane : {LS_PLANE_F, LS_PLANE_PRODUCT}) {
        const bool two = plane == LS_PLANE_PRODUCT;
        const Shift d = two ? Shift{3, 40} : Shift{0, 0};
        const int16_t *g = two ? other_picture.data() : picture.data();
        const std::string of_plane = ", plane " + std::to_string(plane);
        for (const Window w : windows) {
            agree_wrapped(w, d, plane, g);
            border_row("`ls_rows`, " + name_of(w) + of_plane, 120, [=](const Library &l, uint32_t border) { library_two(l, border, w, d, plane, g, ROWS, sums); });
        }
        border_row("`ls_build`" + of_plane, 400, [=](const Library &l, uint32_t border) { library_build_two(l, border, d, plane, g, table); });
    }
    library_build(NOW, table);
    for (const Window w : windows) {
        static int64_t total;
        const auto direct = [=](const Library &l, uint32_t border) { total = each([&](size_t i, size_t j) { return library_direct(l, border, w, i, j); }); };
        const auto read = [=](const Library &l, uint32_t border) { total = each([&](size_t i, size_t j) { return library_read(l, border, w, i, j); }); };
        direct(NOW, WRAPPED);
        const int64_t sum = total;
        read(NOW, WRAPPED);
        if (total != sum) fail("single cells differ where columns wrap");
        border_row("`ls_direct_sum`, " + name_of(w), w.first > 40 ? 60 : 400, direct);
        border_row("`ls_read`, " + name_of(w), w.first > 40 ? 60 : 400, read);
    }
    for (const Window w : windows) border_row("`ls_smooth`, " + name_of(w), 60, [=](const Library &l, uint32_t border) { library_smooth(l, border, w); });
}

// The statistics of the six sums of 1,000 windows of 15 x 15; they have no rival here.
void statistics() {
    static std::vector<int64_t> z;
    for (size_t k = 0; k < 1000; k++)
        for (uint32_t plane = LS_PLANE_ONE; plane <= LS_PLANE_PRODUCT; plane++) {
            int64_t s = 0;
            granted(ls_direct_sum(ROWS, COLUMNS, CLIPPED, picture.data(), CELLS, picture.data(), CELLS, LS_RECTANGLE, 7, 7, 3, 5, plane, k * 7919 % (ROWS - 3), k * 104729 % (COLUMNS - 5), &s), "ls_direct_sum");
            z.push_back(s);
        }
    static int64_t total;
    const auto statistic = [](decltype(&ls_mean) f) {
        return [f] {
            for (size_t k = 0; k < z.size(); k += 6) {
                int64_t x = 0;
                granted(f(z[k], z[k + 1], z[k + 2], z[k + 3], z[k + 4], z[k + 5], &x), "a statistic");
                total += x;
            }
        };
    };
    Runs r;
    const size_t mean = r.other(statistic(ls_mean)), deviation = r.other(statistic(ls_deviation)), coefficient = r.other(statistic(ls_coefficient));
    r.measure(200);
    absolutely("`ls_mean` of six sums", r, mean, 1000);
    absolutely("`ls_deviation` of six sums", r, deviation, 1000);
    absolutely("`ls_coefficient` of six sums", r, coefficient, 1000);
}

// ---- the plot: time of a whole picture by one call, over the time to copy its sums

std::string plot() {
    struct Line {
        std::string name, colour, dashes;
        std::vector<double> values;
    };
    std::vector<Line> lines = {{"rectangle", "#1f5fa8", "", {}}, {"diamond", "#b3402a", "", {}}, {"hexagon", "#3f7f3f", "", {}}, {"plain Rust, rectangle", "#1f5fa8", "2 3", {}}, {"plain Rust, diamond", "#b3402a", "2 3", {}}};
#ifdef WITH_OPENCV
    lines.push_back({"cv::boxFilter, rectangle", "#1f5fa8", "8 4", {}});
    lines.push_back({"cv::filter2D, diamond", "#b3402a", "8 4", {}});
#endif
    const std::vector<int32_t> widths = {2, 4, 8, 16, 32, 64, 126};
    for (int32_t half : widths) {
        const Window windows[] = {{LS_RECTANGLE, half, half}, {LS_DIAMOND, half, 0}, {LS_HEXAGON, half / 2, half / 2}};
        std::vector<std::function<void()>> runs = {copy_sums};
        for (const Window w : windows) runs.push_back([=] { library_rows(NOW, w, LS_PLANE_F, ROWS, sums); });
        const size_t n = unsigned_of(half);
        runs.push_back([=] { plain_rectangle(ROWS, COLUMNS, picture.data(), n, n, false, work.data(), rival.data()); });
        runs.push_back([=] { plain_slanted(ROWS, COLUMNS, picture.data(), 0, n, work.data(), rival.data()); });
#ifdef WITH_OPENCV
        static cv::Mat box, filtered;
        const cv::Mat kernel = kernel_of(windows[1], CV_64F);
        runs.push_back([=] { cv::boxFilter(levels(), box, CV_64F, cv::Size(2 * half + 1, 2 * half + 1), cv::Point(-1, -1), false, cv::BORDER_CONSTANT); });
        runs.push_back([=] { cv::filter2D(levels(), filtered, CV_64F, kernel, cv::Point(-1, -1), 0, cv::BORDER_CONSTANT); });
#endif
        const auto t = in_turn(half > 40 ? 12 : 25, runs);
        for (size_t k = 0; k < lines.size(); k++) lines[k].values.push_back(t[k + 1].best / t[0].best);
    }
    double most = 10;
    for (const auto &l : lines) most = std::max(most, *std::max_element(l.values.begin(), l.values.end()));
    const double decades = std::ceil(std::log10(most)), left = 80, right = 560, above = 60, below = 380;
    const auto place_x = [&](size_t k) { return left + (right - left) * static_cast<double>(k) / static_cast<double>(widths.size() - 1); };
    const auto place_y = [&](double v) { return below - (below - above) * std::log10(std::max(v, 1.0)) / decades; };
    const auto text = [](double x, double y, const std::string &anchor, const std::string &t, const std::string &more = "") {
        return "<text x=\"" + number(x) + "\" y=\"" + number(y) + "\" text-anchor=\"" + anchor + "\"" + more + ">" + t + "</text>\n";
    };
    const auto across = [&](double y, const std::string &colour) {
        return "<line x1=\"" + number(left) + "\" y1=\"" + number(y) + "\" x2=\"" + number(right) + "\" y2=\"" + number(y) + "\" stroke=\"" + colour + "\"/>\n";
    };
    std::string svg = "<svg xmlns=\"http://www.w3.org/2000/svg\" viewBox=\"0 0 800 440\" font-family=\"sans-serif\" font-size=\"13\">\n<rect width=\"800\" height=\"440\" fill=\"white\"/>\n";
    svg += text(left, 24, "start", "The window grows: 256 rows of 1,024 sums, plane 1", " font-size=\"16\"") + text(left, 44, "start", "time over that of a copy of the sums; logarithmic, a line for each 1, 2, 5", " fill=\"#666\"");
    for (double p = 0; p <= decades; p++)
        for (double step : {1.0, 2.0, 5.0}) {
            const double v = step * std::pow(10, p);
            if (v > std::pow(10, decades)) continue;
            svg += across(place_y(v), step == 1 ? "#999" : "#ddd") + text(left - 8, place_y(v) + 4, "end", std::to_string(static_cast<long>(v)), step == 1 ? "" : " font-size=\"10\" fill=\"#666\"");
        }
    for (size_t k = 0; k < widths.size(); k++) svg += text(place_x(k), below + 20, "middle", std::to_string(widths[k]));
    svg += text((left + right) / 2, below + 44, "middle", "half width of the window (of a hexagon: k + h)");
    for (size_t l = 0; l < lines.size(); l++) {
        const std::string stroke = " stroke=\"" + lines[l].colour + "\" stroke-width=\"2\"" + (lines[l].dashes.empty() ? "" : " stroke-dasharray=\"" + lines[l].dashes + "\"");
        std::string points;
        for (size_t k = 0; k < widths.size(); k++) points += number(place_x(k)) + "," + number(place_y(lines[l].values[k])) + " ";
        svg += "<polyline fill=\"none\"" + stroke + " points=\"" + points + "\"/>\n";
        const double y = above + 20 * static_cast<double>(l) + 10;
        svg += "<line x1=\"580\" y1=\"" + number(y) + "\" x2=\"612\" y2=\"" + number(y) + "\"" + stroke + "/>\n" + text(620, y + 4, "start", lines[l].name);
    }
    return svg + "</svg>\n";
}

std::string fact(const char *name) {
    const char *value = std::getenv(name);
    return value ? value : "unknown";
}

void write(const char *path, const std::string &text) {
    std::ofstream out(path, std::ios::binary);
    out << text;
    if (!out) fail(std::string("cannot write ") + path);
}

}  // namespace

int main(int argc, char **argv) {
    if (argc != 3) fail("usage: bench PAGE PLOT");
    uint64_t seed = 2463534242;
    for (auto &level : picture) {
        seed ^= seed << 13, seed ^= seed >> 7, seed ^= seed << 17;
        level = static_cast<int16_t>(seed >> 32);
    }
    for (auto &level : other_picture) {
        seed ^= seed << 13, seed ^= seed >> 7, seed ^= seed << 17;
        level = static_cast<int16_t>(seed >> 32);
    }
#ifdef WITH_OPENCV
    cv::setNumThreads(1);
    const std::string opencv = CV_VERSION;
#else
    const std::string opencv = "not found, so left out";
    std::printf("OpenCV was not found: what would stand beside it is left out\n");
#endif
    tables();
    rectangles(LS_PLANE_F, "Row sums over rectangles", "Plane 1; `cv::boxFilter` is unnormalised, with zeros around the picture, and the copy is that of the sums' bytes.");
    rectangles(LS_PLANE_F_SQUARED, "Sums of squares over rectangles", "Plane 3, one call.");
    products();
    slanted();
    smoothing();
    searching();
    single_cells();
    borders();
    statistics();
    page = "# Benchmarks\n\nWritten by `bench/run`, from one run, one thread, on a picture of 256 × 1,024 random levels; this library's checks are included.\n\n- CPU: " + fact("BENCH_CPU") + "\n- this library: " + fact("BENCH_KIT") +
           "\n- C++: " + fact("BENCH_CXX") + ", -O3\n- Rust: " + fact("BENCH_RUST") + ", -C opt-level=3\n- OpenCV: " + opencv +
           "\n\n## How long it takes\n\nBest times on this machine; the ratios below say more about another one.\n\n| What | Time |\n|---|---|\n" + absolute +
           "\n## The window grows\n\n![Time against the window's size](benchmarks.svg)\n\n## Where it is the slower one\n\nEvery line below on which OpenCV or plain Rust takes less time, with the ratio of best times; what the reasons are stands at the end.\n\n| Section | What | Beside | Best times |\n|---|---|---|---|\n" + slower +
           "\n## How to read the ratios\n\nA ratio says how many times as fast this library is as what stands beside it; above 1 it is the faster one. The two programs alternate: in every round each runs twice, and the second time counts. Results are compared for equality before anything is timed" +
           (with_old ? ", but for those of the earlier build, which a change may have meant to alter" : "") + ". Functions begin at multiples of 64 bytes, so that their place in the program decides nothing." +
           (with_old ? " The last column is how many times as fast it is as an earlier build of itself, by best times." : "") + "\n" + page;
    write(argv[2], plot());
    write(argv[1], page);
}
