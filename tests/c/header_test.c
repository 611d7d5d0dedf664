/* Solves the paper's 2 by 2 file through the C interface, keeps its factors, tries floors under pivots and columns that
 * stand several times in a row, prints the fill, makes a test load, holds the length macros to the lengths that the
 * calls take, tries NULL for buffers of length 0, and shows what another floating-point environment changes.
 * The exit status is 0 if every answer is as the header promises. */
#include "lilacpliers.h"

#include <float.h>
#include <math.h>
#include <setjmp.h>
#include <signal.h>
#include <stdio.h>
#include <string.h>
#include <xmmintrin.h>

#if LP_VERSION != 7
#error "this test is written for version 7 of the interface"
#endif

#define NONE NULL, 0
#define LENGTH(list) (sizeof(list) / sizeof((list)[0]))
#define LENT(list) (list), LENGTH(list)

enum { N = 2, E = 4, SLOTS = 3 };

static int failures = 0;

static void expect(int holds, const char *what)
{
    if (!holds) {
        fprintf(stderr, "not as expected: %s\n", what);
        failures += 1;
    }
}

/* Rows (2, 4), (1, 4), b = (10, 9), orders 0, 1. */
static const uint32_t starts[LP_STARTS_LEN(N)] = {0, 2, 4};
static const uint16_t columns[E] = {0, 1, 0, 1};
static const double values[E] = {2, 4, 1, 4};
static const uint16_t order[N] = {0, 1};
static const double right[N] = {10, 9};

/* One side's buffers. */
struct side {
    uint32_t starts[LP_STARTS_LEN(N)];
    uint32_t runs[N];
    uint16_t index[SLOTS];
    double values[SLOTS];
};

static struct side lower, upper;
static double d[N], x[N], scratch_f64[LP_SCRATCH_F64(N)];
static uint32_t scratch_u32[LP_SCRATCH_U32(N)];
static uint64_t report[4];

static void expect_solution(const char *what)
{
    expect(x[0] == 1.0 && x[1] == 2.0, what);
    x[0] = x[1] = 0.0;
}

static void expect_counts(const char *what)
{
    expect(report[0] == 0 && report[1] == 1 && report[2] == 1 && report[3] == 1, what);
    memset(report, 0, sizeof report);
}

static void file_and_back(void)
{
    static uint8_t file[LP_FILE_BYTES(N, E)];
    uint32_t s[LP_STARTS_LEN(N)];
    uint16_t j[E], r[N], c[N];
    double v[E], b[N];
    expect(lp_write_matrix(N, LENT(starts), LENT(columns), LENT(values), LENT(order), LENT(order), LENT(right),
                           LENT(file), LENT(report)) == LP_DONE, "write");
    expect(lp_file_shape(LENT(file), LENT(report)) == LP_DONE && report[1] == N && report[2] == E, "shape");
    expect(lp_read_matrix(LENT(file), LENT(s), LENT(j), LENT(v), LENT(r), LENT(c), LENT(b), LENT(report)) == LP_DONE,
           "read");
    expect(memcmp(s, starts, sizeof s) == 0 && memcmp(j, columns, sizeof j) == 0, "starts and columns");
    expect(memcmp(v, values, sizeof v) == 0 && memcmp(b, right, sizeof b) == 0, "values and b");
    expect(memcmp(r, order, sizeof r) == 0 && memcmp(c, order, sizeof c) == 0, "orders");
    file[509] ^= 1;
    expect(lp_file_shape(LENT(file), LENT(report)) == LP_BLOCK && report[0] == 0, "a damaged block");
}

/* What a solve left serves new values and another right side: with twice the values and b the factors double and x
 * stays, with twice b alone x doubles. */
static const double twice_values[] = {4.0, 8.0, 2.0, 8.0};
static const double twice_right[] = {20.0, 18.0};

static void plain_again(void)
{
    expect(lp_refactor_plain(N, LENT(starts), LENT(columns), LENT(twice_values), LENT(order), LENT(order),
                             LENT(twice_right), 0.0, LENT(lower.starts), LENT(lower.index), LENT(lower.values),
                             LENT(upper.starts), LENT(upper.index), LENT(upper.values),
                             LENT(d), LENT(x), LENT(scratch_f64), LENT(scratch_u32), LENT(report)) == LP_DONE,
           "refactor");
    expect_solution("x of the refactored system");
    expect(lower.values[0] == 2.0 && upper.values[0] == 2.0 && d[0] == 0.25, "refactored factors");
    expect(lp_resolve_plain(N, LENT(order), LENT(order), LENT(right), LENT(lower.starts), LENT(lower.index),
                            LENT(lower.values), LENT(upper.starts), LENT(upper.index), LENT(upper.values),
                            LENT(d), LENT(x), LENT(scratch_f64), LENT(scratch_u32), LENT(report)) == LP_DONE,
           "another right side");
    expect(x[0] == 0.5 && x[1] == 1.0, "x of another right side");
    upper.starts[1] = 7;
    expect(lp_resolve_plain(N, LENT(order), LENT(order), LENT(right), LENT(lower.starts), LENT(lower.index),
                            LENT(lower.values), LENT(upper.starts), LENT(upper.index), LENT(upper.values),
                            LENT(d), LENT(x), LENT(scratch_f64), LENT(scratch_u32), LENT(report)) == LP_BAD_FACTORS
           && report[0] == 0, "a list outside its store");
    expect(lp_refactor_plain(N, LENT(starts), LENT(columns), LENT(values), LENT(order), LENT(order), LENT(right), 0.0,
                             LENT(lower.starts), LENT(lower.index), LENT(lower.values),
                             LENT(upper.starts), LENT(upper.index), LENT(upper.values),
                             LENT(d), LENT(x), LENT(scratch_f64), LENT(scratch_u32), LENT(report))
           == LP_OTHER_STRUCTURE && report[0] == 0 && upper.starts[1] == 7, "a list start of another structure");
}

/* Factors that were read; a file has them in the first slots, and zeros behind them. */
struct kept {
    uint16_t r[N], c[N];
    struct side lower, upper;
    double d[N];
};

static uint8_t factor_file[LP_FACTOR_BYTES(N, 1, 1)];

static uint32_t write_factors(uint64_t products)
{
    return lp_write_factors(N, 1, 1, products, LENT(order), LENT(order),
                            LENT(lower.starts), LENT(lower.index), LENT(lower.values),
                            LENT(upper.starts), LENT(upper.index), LENT(upper.values), LENT(d),
                            LENT(factor_file), LENT(report));
}

static uint32_t read_factors(struct kept *kept, size_t index_len)
{
    return lp_read_factors(LENT(factor_file), LENT(kept->r), LENT(kept->c),
                           LENT(kept->lower.starts), kept->lower.index, index_len, LENT(kept->lower.values),
                           LENT(kept->upper.starts), LENT(kept->upper.index), LENT(kept->upper.values),
                           LENT(kept->d), LENT(report));
}

static void expect_side(const struct side *found, const struct side *due, const char *what)
{
    expect(memcmp(found->starts, due->starts, sizeof due->starts) == 0
           && memcmp(found->index, due->index, sizeof due->index) == 0
           && memcmp(found->values, due->values, sizeof due->values) == 0, what);
}

/* A file of blocks with another shape: a matrix whose first row start is read as upper. */
static void other_shape(void)
{
    static const uint32_t far_starts[LP_STARTS_LEN(N)] = {1000, 2, 4};
    expect(lp_write_matrix(N, LENT(far_starts), LENT(columns), LENT(values), LENT(order), LENT(order), LENT(right),
                           LENT(factor_file), LENT(report)) == LP_DONE, "a matrix file of the same length");
    memset(report, 0xA5, sizeof report);
    expect(lp_factor_shape(LENT(factor_file), LENT(report)) == LP_FACTOR_SHAPE && report[0] == 0 && report[1] == 0
           && report[2] == 0 && report[3] == 0, "the shape of no factors");
}

/* What a solve left is written, read into other buffers, and serves the same right side. */
static void kept_factors(void)
{
    struct kept kept, noise;
    memset(&kept, 0xA5, sizeof kept);
    memset(&noise, 0xA5, sizeof noise);
    expect(write_factors(2) == LP_PRODUCTS && report[0] == 0, "products that are not those of the lists");
    expect(write_factors(1) == LP_DONE && report[0] == 0, "factors written");
    expect(lp_factor_shape(LENT(factor_file), LENT(report)) == LP_DONE && report[0] == 0 && report[1] == N
           && report[2] == 1 && report[3] == 1, "the shape of factors");
    expect(read_factors(&kept, 0) == LP_LENGTHS && memcmp(&kept, &noise, sizeof kept) == 0, "a store too short");
    expect(read_factors(&kept, SLOTS) == LP_DONE, "factors read");
    expect_counts("counts of the factors read");
    expect_side(&kept.lower, &lower, "the lower lists read");
    expect_side(&kept.upper, &upper, "the upper lists read");
    expect(memcmp(kept.d, d, sizeof d) == 0, "d read");
    expect(lp_resolve_plain(N, LENT(kept.r), LENT(kept.c), LENT(right),
                            LENT(kept.lower.starts), LENT(kept.lower.index), LENT(kept.lower.values),
                            LENT(kept.upper.starts), LENT(kept.upper.index), LENT(kept.upper.values),
                            LENT(kept.d), LENT(x), LENT(scratch_f64), LENT(scratch_u32), LENT(report)) == LP_DONE,
           "a right side over the factors read");
    expect_solution("x over the factors read");
    factor_file[20] ^= 1;
    expect(read_factors(&kept, SLOTS) == LP_BLOCK && report[0] == 0 && report[1] == 0, "a damaged factor file");
    other_shape();
}

static void plain_form(void)
{
    expect(lp_solve_plain(N, LENT(starts), LENT(columns), LENT(values), LENT(order), LENT(order), LENT(right), 0.0,
                          LENT(lower.starts), LENT(lower.index), LENT(lower.values),
                          LENT(upper.starts), LENT(upper.index), LENT(upper.values),
                          LENT(d), LENT(x), LENT(scratch_f64), LENT(scratch_u32), LENT(report)) == LP_DONE, "solve");
    expect_counts("counts of the plain form");
    expect_solution("x of the plain form");
    expect(lower.values[0] == 1.0 && upper.values[0] == 2.0 && d[0] == 0.5 && d[1] == 0.5, "factors");
    kept_factors();
    expect(lp_list_plain(LP_LOWER, 1, N, LENT(lower.starts), LENT(lower.index), LENT(upper.starts), LENT(upper.index),
                         LENT(report)) == LP_DONE && report[0] == 0 && report[1] == 1, "lower row 1");
    expect(lp_list_plain(LP_LOWER, 0, N, LENT(lower.starts), LENT(lower.index), LENT(upper.starts), LENT(upper.index),
                         LENT(report)) == LP_DONE && report[1] == 0, "lower row 0");
    const uint32_t sides[] = {LP_UPPER, 2, 256, UINT32_MAX};
    for (size_t i = 0; i < LENGTH(sides); i++)
        expect(lp_list_plain(sides[i], 0, N, LENT(lower.starts), LENT(lower.index), LENT(upper.starts),
                             LENT(upper.index), LENT(report)) == LP_DONE && report[0] == 0 && report[1] == 1,
               "every side number but LP_LOWER is the upper side");
    expect(lp_structure_plain(N, LENT(starts), LENT(columns), LENT(order), LENT(order),
                              LENT(lower.starts), LENT(lower.index), LENT(lower.values),
                              LENT(upper.starts), LENT(upper.index), LENT(upper.values),
                              LENT(scratch_f64), LENT(scratch_u32), LENT(report)) == LP_DONE, "structure");
    expect_counts("counts of the plain structure");
    plain_again();
}

static void shared_form(void)
{
    expect(lp_structure_shared(N, LENT(starts), LENT(columns), LENT(order), LENT(order),
                               LENT(lower.starts), LENT(lower.runs), LENT(lower.index), LENT(lower.values),
                               LENT(upper.starts), LENT(upper.runs), LENT(upper.index), LENT(upper.values),
                               LENT(scratch_f64), LENT(scratch_u32), LENT(report)) == LP_DONE, "shared structure");
    expect_counts("counts of the shared structure");
    expect(lp_list_shared(LP_UPPER, 0, N, LENT(lower.starts), LENT(lower.runs), LENT(lower.index),
                          LENT(upper.starts), LENT(upper.runs), LENT(upper.index), LENT(report)) == LP_DONE
           && report[0] == 0 && report[1] == 1, "upper list 0");
    expect(lp_solve_shared(N, LENT(starts), LENT(columns), LENT(values), LENT(order), LENT(order), LENT(right), 0.0,
                           LENT(lower.starts), LENT(lower.runs), LENT(lower.index), LENT(lower.values),
                           LENT(upper.starts), LENT(upper.runs), LENT(upper.index), LENT(upper.values),
                           LENT(d), LENT(x), LENT(scratch_f64), LENT(scratch_u32), LENT(report)) == LP_DONE,
           "shared solve");
    expect_counts("counts of the shared solve");
    expect_solution("x of the shared solve");
    expect(lp_refactor_shared(N, LENT(starts), LENT(columns), LENT(twice_values), LENT(order), LENT(order),
                              LENT(twice_right), 0.0, LENT(lower.starts), LENT(lower.runs), LENT(lower.index),
                              LENT(lower.values), LENT(upper.starts), LENT(upper.runs), LENT(upper.index),
                              LENT(upper.values), LENT(d), LENT(x), LENT(scratch_f64), LENT(scratch_u32),
                              LENT(report)) == LP_DONE, "shared refactor");
    expect_solution("x of the shared refactored system");
    expect(lp_resolve_shared(N, LENT(order), LENT(order), LENT(right), LENT(lower.starts), LENT(lower.runs),
                             LENT(lower.index), LENT(lower.values), LENT(upper.starts), LENT(upper.runs),
                             LENT(upper.index), LENT(upper.values), LENT(d), LENT(x), LENT(scratch_f64),
                             LENT(scratch_u32), LENT(report)) == LP_DONE, "shared, another right side");
    expect(x[0] == 0.5 && x[1] == 1.0, "x of another right side in the shared form");
}

static void row_form(void)
{
    expect(lp_solve_row(N, LENT(starts), LENT(columns), LENT(values), LENT(order), LENT(order), LENT(right), 0.0,
                        LENT(upper.starts), LENT(upper.runs), LENT(upper.index), LENT(upper.values),
                        LENT(d), LENT(x), LENT(scratch_f64), LENT(scratch_u32), LENT(report)) == LP_DONE, "row solve");
    expect_counts("counts of the row solve");
    expect_solution("x of the row solve");
    expect(d[0] == 0.0 && upper.values[0] == 0.0 && upper.index[0] == 0, "the row form leaves zeros");
}

/* Rows (4, 4), (1, -1), b = (8, -1): the pivots are 4 and -2, x is (0.5, 1.5). */
static const double floor_values[E] = {4, 4, 1, -1};
static const double floor_right[N] = {8, -1};

/* The calls that factor. */
enum { PLAIN, SHARED, ROW, PLAIN_AGAIN, SHARED_AGAIN, FACTORING };

#define MATRIX LENT(starts), LENT(columns), LENT(floor_values), LENT(order), LENT(order), LENT(floor_right)
#define PLAIN_SIDES LENT(lower.starts), LENT(lower.index), LENT(lower.values), \
                    LENT(upper.starts), LENT(upper.index), LENT(upper.values)
#define SHARED_UPPER LENT(upper.starts), LENT(upper.runs), LENT(upper.index), LENT(upper.values)
#define SHARED_SIDES LENT(lower.starts), LENT(lower.runs), LENT(lower.index), LENT(lower.values), SHARED_UPPER
#define REST LENT(d), LENT(x), LENT(scratch_f64), LENT(scratch_u32), LENT(report)

static uint32_t factor_above(int call, double floor)
{
    switch (call) {
    case PLAIN:
        return lp_solve_plain(N, MATRIX, floor, PLAIN_SIDES, REST);
    case SHARED:
        return lp_solve_shared(N, MATRIX, floor, SHARED_SIDES, REST);
    case ROW:
        return lp_solve_row(N, MATRIX, floor, SHARED_UPPER, REST);
    case PLAIN_AGAIN:
        return lp_refactor_plain(N, MATRIX, floor, PLAIN_SIDES, REST);
    default:
        return lp_refactor_shared(N, MATRIX, floor, SHARED_SIDES, REST);
    }
}

/* Noise everywhere, but for the lists that refactor reads. */
static void prepare(int call)
{
    memset(&lower, 0xA5, sizeof lower);
    memset(&upper, 0xA5, sizeof upper);
    if (call == PLAIN_AGAIN)
        expect(lp_solve_plain(N, MATRIX, 0.0, PLAIN_SIDES, REST) == LP_DONE, "lists for a plain refactor");
    if (call == SHARED_AGAIN)
        expect(lp_solve_shared(N, MATRIX, 0.0, SHARED_SIDES, REST) == LP_DONE, "lists for a shared refactor");
    memset(lower.values, 0xA5, sizeof lower.values);
    memset(upper.values, 0xA5, sizeof upper.values);
    memset(d, 0xA5, sizeof d);
    memset(x, 0xA5, sizeof x);
    memset(scratch_f64, 0xA5, sizeof scratch_f64);
    memset(scratch_u32, 0xA5, sizeof scratch_u32);
    memset(report, 0xA5, sizeof report);
}

static int all_bytes(const void *from, size_t length, unsigned char byte)
{
    const unsigned char *bytes = from;
    for (size_t i = 0; i < length; i++)
        if (bytes[i] != byte)
            return 0;
    return 1;
}

/* A floor, and what every call that factors answers under it. */
struct tried {
    double floor;
    uint32_t number;
    uint64_t place;
};

static const struct tried tried[] = {
    {0.0, LP_DONE, 0}, {-0.0, LP_DONE, 0}, {0x1p-1074, LP_DONE, 0}, {0x1.fffffffffffffp0, LP_DONE, 0},
    {2.0, LP_ZERO_PIVOT, 1}, {0x1.0000000000001p1, LP_ZERO_PIVOT, 1}, {0x1.fffffffffffffp1, LP_ZERO_PIVOT, 1},
    {4.0, LP_ZERO_PIVOT, 0}, {0x1.fffffffffffffp1023, LP_ZERO_PIVOT, 0},
    {-0x1p-1074, LP_FLOOR, 0}, {-2.0, LP_FLOOR, 0}, {INFINITY, LP_FLOOR, 0}, {-INFINITY, LP_FLOOR, 0},
    {NAN, LP_FLOOR, 0}, {-NAN, LP_FLOOR, 0}};

static void floor_in(int call, struct tried t)
{
    prepare(call);
    struct side lower_before, upper_before;
    memcpy(&lower_before, &lower, sizeof lower);
    memcpy(&upper_before, &upper, sizeof upper);
    expect(factor_above(call, t.floor) == t.number && report[0] == t.place, "number and place under a floor");
    expect(all_bytes(scratch_f64, sizeof scratch_f64, 0) && all_bytes(scratch_u32, sizeof scratch_u32, 0),
           "scratch is zero under a floor");
    if (t.number == LP_DONE)
        expect(x[0] == 0.5 && x[1] == 1.5, "x under a floor");
    else
        expect(all_bytes(x, sizeof x, 0xA5), "x is untouched");
    if (t.number == LP_ZERO_PIVOT)
        expect(all_bytes(d, sizeof d, 0) && all_bytes(upper.values, sizeof upper.values, 0),
               "d and the values are zero after LP_ZERO_PIVOT");
    if (t.number == LP_FLOOR)
        expect(all_bytes(d, sizeof d, 0xA5) && memcmp(&lower, &lower_before, sizeof lower) == 0
               && memcmp(&upper, &upper_before, sizeof upper) == 0, "d and the stores are untouched after LP_FLOOR");
}

static void floors(void)
{
    for (int call = PLAIN; call < FACTORING; call++)
        for (size_t i = 0; i < LENGTH(tried); i++)
            floor_in(call, tried[i]);
}

/* The pattern from above with three entries a row: row 0 has column 0 twice, apart, row 1 has column 1 twice. */
enum { CITED = 6 };

static const uint32_t cited_starts[LP_STARTS_LEN(N)] = {0, 3, 6};
static const uint16_t cited_columns[CITED] = {0, 1, 0, 0, 1, 1};

#define CITED_MATRIX(numbers) \
    LENT(cited_starts), LENT(cited_columns), (numbers), CITED, LENT(order), LENT(order), LENT(right)

static uint32_t factor_cited(int call, const double *numbers)
{
    switch (call) {
    case PLAIN:
        return lp_solve_plain(N, CITED_MATRIX(numbers), 0.0, PLAIN_SIDES, REST);
    case SHARED:
        return lp_solve_shared(N, CITED_MATRIX(numbers), 0.0, SHARED_SIDES, REST);
    case ROW:
        return lp_solve_row(N, CITED_MATRIX(numbers), 0.0, SHARED_UPPER, REST);
    case PLAIN_AGAIN:
        return lp_refactor_plain(N, CITED_MATRIX(numbers), 0.0, PLAIN_SIDES, REST);
    default:
        return lp_refactor_shared(N, CITED_MATRIX(numbers), 0.0, SHARED_SIDES, REST);
    }
}

/* Six values, and what every call that factors answers: number, place and x. */
struct cited {
    double numbers[CITED];
    uint32_t number;
    uint64_t place;
    double x[N];
};

static const struct cited cited[] = {
    {{1, 4, 1, 1, 1, 3}, LP_DONE, 0, {1, 2}},
    {{-2, 4, 4, 1, 0.5, 3.5}, LP_DONE, 0, {1, 2}},
    {{1, 4, 1, 1, 2, -2}, LP_DONE, 0, {9, -2}},          /* a sum of zero, and fill over it */
    {{1, 4, -1, 1, 1, 3}, LP_ZERO_PIVOT, 0, {0, 0}},
    {{DBL_MAX, 4, DBL_MAX, 1, 1, 3}, LP_OVERFLOW, 0, {0, 0}},
    {{1, 4, 1, 1, -DBL_MAX, -DBL_MAX}, LP_OVERFLOW, 1, {0, 0}},
    {{1, 4, -1, 1, DBL_MAX, DBL_MAX}, LP_ZERO_PIVOT, 0, {0, 0}}, /* what place 0 refuses comes first */
    {{0x1p-1074, 4, 0, 1, DBL_MAX, DBL_MAX}, LP_OVERFLOW, 0, {0, 0}}};

static void cited_in(int call, const struct cited *t)
{
    prepare(call);
    expect(factor_cited(call, t->numbers) == t->number && report[0] == t->place, "number and place of sums");
    expect(all_bytes(scratch_f64, sizeof scratch_f64, 0) && all_bytes(scratch_u32, sizeof scratch_u32, 0),
           "scratch is zero after sums");
    if (t->number == LP_DONE) {
        expect(x[0] == t->x[0] && x[1] == t->x[1], "x of sums");
        if (call == PLAIN || call == SHARED || call == ROW)
            expect_counts("counts of sums");
        return;
    }
    expect(all_bytes(x, sizeof x, 0xA5), "x is untouched after sums");
    expect(all_bytes(d, sizeof d, 0) && all_bytes(upper.values, sizeof upper.values, 0),
           "d and the values are zero after a refusal of sums");
}

/* One row of so many entries, each 2^-16, and b = 1. */
static uint32_t solve_parts(size_t e, double *solution)
{
    static uint16_t zeros[LP_MAX_ENTRIES + 1];
    static double parts[LP_MAX_ENTRIES + 1];
    const uint32_t one_row[2] = {0, (uint32_t)e};
    const double one = 1.0;
    uint32_t lower_starts[2], upper_starts[2], marks[LP_SCRATCH_U32(1)];
    double pivot[1], work[LP_SCRATCH_F64(1)];
    for (size_t i = 0; i < e; i++)
        parts[i] = 0x1p-16;
    return lp_solve_plain(1, LENT(one_row), zeros, e, parts, e, zeros, 1, zeros, 1, &one, 1, 0.0,
                          LENT(lower_starts), NONE, NONE, LENT(upper_starts), NONE, NONE,
                          LENT(pivot), solution, 1, LENT(work), LENT(marks), NONE);
}

static void cited_twice(void)
{
    double solution = 0.0;
    for (int call = PLAIN; call < FACTORING; call++)
        for (size_t i = 0; i < LENGTH(cited); i++)
            cited_in(call, &cited[i]);
    expect(lp_structure_plain(N, LENT(cited_starts), LENT(cited_columns), LENT(order), LENT(order), PLAIN_SIDES,
                              LENT(scratch_f64), LENT(scratch_u32), LENT(report)) == LP_DONE, "structure, repeats");
    expect_counts("counts of the plain structure, repeats");
    expect(lp_structure_shared(N, LENT(cited_starts), LENT(cited_columns), LENT(order), LENT(order), SHARED_SIDES,
                               LENT(scratch_f64), LENT(scratch_u32), LENT(report)) == LP_DONE,
           "shared structure, repeats");
    expect_counts("counts of the shared structure, repeats");
    expect(solve_parts(LP_MAX_ENTRIES, &solution) == LP_DONE && solution == 1.0, "as many entries as there may be");
    expect(solve_parts(LP_MAX_ENTRIES + 1, &solution) == LP_LENGTHS, "one entry more");
}

/* The first lines of the fill sheet; blank ones follow. Both orders are 1, 0, so that own row and place differ. */
static const char sheet_lines[] = "FILL                                   1\n"
                                  "     0       1       0       1         0\n"
                                  "     1       0       1       0         1\n";
static const uint16_t other_order[N] = {1, 0};
static uint8_t sheet[LP_SHEET_BYTES(N)];

/* Prints the fill over noise into so many bytes; r and c are the order. */
static uint32_t print_fill(const uint16_t *both, size_t sheet_len)
{
    memset(sheet, 0xA5, sizeof sheet);
    memset(report, 0xA5, sizeof report);
    return lp_fill_sheet(N, LENT(starts), LENT(columns), both, N, both, N,
                         LENT(lower.starts), LENT(lower.runs), LENT(lower.index), LENT(lower.values),
                         LENT(upper.starts), LENT(upper.runs), LENT(upper.index), LENT(upper.values),
                         LENT(scratch_f64), LENT(scratch_u32), sheet, sheet_len, LENT(report));
}

static void expect_no_sheet(const char *what)
{
    int kept = 1;
    for (size_t i = 0; i < sizeof sheet; i++)
        kept = kept && sheet[i] == 0xA5;
    expect(kept && report[0] == 0 && report[1] == 0 && report[2] == 0 && report[3] == 0, what);
}

static void fill_sheet(void)
{
    const size_t lines = sizeof sheet_lines - 1;
    int blank = 1;
    expect(print_fill(other_order, sizeof sheet) == LP_DONE, "fill sheet");
    expect_counts("counts of the fill sheet");
    expect(memcmp(sheet, sheet_lines, lines) == 0, "lines of the fill sheet");
    for (size_t i = lines; i < sizeof sheet; i++)
        blank = blank && sheet[i] == (i % 41 == 40 ? '\n' : ' ');
    expect(blank, "blank lines of the fill sheet");
    expect(upper.runs[0] == 0 && upper.runs[1] == 1 && upper.index[0] == 1, "lists of the fill sheet's call");
    expect(print_fill(other_order, sizeof sheet - 1) == LP_LENGTHS, "fill sheet, a byte short");
    expect_no_sheet("2 leaves the sheet");
    expect(print_fill(order, sizeof sheet) == LP_DONE, "fill sheet in the natural order");
    expect(memcmp(sheet, sheet_lines, lines) != 0, "another order is another sheet");
    memset(sheet, 0xA5, sizeof sheet);
    expect(lp_fill_sheet(N, LENT(cited_starts), LENT(cited_columns), LENT(other_order), LENT(other_order), SHARED_SIDES,
                         LENT(scratch_f64), LENT(scratch_u32), LENT(sheet), LENT(report)) == LP_DONE,
           "fill sheet, repeats");
    expect(memcmp(sheet, sheet_lines, lines) == 0, "repeats do not change the sheet");
    const uint16_t no_order[N] = {0, 0};
    expect(print_fill(no_order, sizeof sheet) == LP_ORDER && report[0] == 1, "fill sheet, no order");
    report[0] = 0;
    expect_no_sheet("5 leaves the sheet");
}

/* The load of n = 5 and seed 1, with its unused slots. */
enum { FIVE = 5, LOAD_ENTRIES = 16 };

static const uint32_t load_starts[LP_STARTS_LEN(FIVE)] = {0, 3, 6, 9, 13, 16};
static const uint16_t load_columns[LP_LOAD_SLOTS(FIVE)] = {0, 3, 2, 1, 2, 3, 2, 1, 3, 3, 2, 4, 1, 4, 3, 1};
static const double load_values[LP_LOAD_SLOTS(FIVE)] = {4, -1, -1, 4, -1, -1, 4, -1, -1, 4, -1, -1, -1, 4, -1, -1};
static const uint16_t load_order[FIVE] = {0, 1, 2, 3, 4};
static const double load_right[FIVE] = {1, 1, 1, 1, 1};

/* What a test load is made in. */
struct load {
    uint32_t starts[LP_STARTS_LEN(FIVE)];
    uint16_t columns[LP_LOAD_SLOTS(FIVE)], r[FIVE], c[FIVE];
    double values[LP_LOAD_SLOTS(FIVE)], b[FIVE];
};

static struct load made, noise;

/* Makes a load of 5 rows over noise; r is lent so many slots. */
static uint32_t make_load(size_t n, uint16_t seed, size_t r_len)
{
    memset(&noise, 0xA5, sizeof noise);
    memset(&made, 0xA5, sizeof made);
    memset(report, 0xA5, sizeof report);
    return lp_test_load(n, seed, LENT(made.starts), LENT(made.columns), LENT(made.values), made.r, r_len,
                        LENT(made.c), LENT(made.b), LENT(report));
}

static void expect_refused(const char *what)
{
    expect(memcmp(&made, &noise, sizeof made) == 0 && report[0] == 0 && report[1] == 0, what);
}

static void test_load(void)
{
    expect(make_load(FIVE, 1, FIVE) == LP_DONE && report[0] == 0 && report[1] == LOAD_ENTRIES, "load");
    expect(report[2] == report[3] && report[2] == 0xA5A5A5A5A5A5A5A5, "a load's report has two slots");
    expect(memcmp(made.starts, load_starts, sizeof load_starts) == 0, "starts of the load");
    expect(memcmp(made.columns, load_columns, sizeof load_columns) == 0, "columns of the load");
    expect(memcmp(made.values, load_values, sizeof load_values) == 0, "values of the load");
    expect(memcmp(made.r, load_order, sizeof load_order) == 0, "row order of the load");
    expect(memcmp(made.c, load_order, sizeof load_order) == 0, "column order of the load");
    expect(memcmp(made.b, load_right, sizeof load_right) == 0, "right side of the load");
    expect(make_load(FIVE, UINT16_MAX, FIVE) == LP_DONE, "load of the greatest seed");
    expect(memcmp(made.columns, load_columns, sizeof load_columns) != 0, "another seed is another load");
    expect(make_load(FIVE, 1, FIVE - 1) == LP_LENGTHS, "load, a row order one slot short");
    expect_refused("2 writes nothing but the report");
    expect(make_load(0, 1, FIVE) == LP_ROWS, "load, n = 0");
    expect_refused("1 writes nothing but the report");
    expect(make_load(LP_MAX_ROWS + 1, 1, FIVE - 1) == LP_ROWS, "load, n over its limit");
    expect_refused("1 comes before 2");
}

/* The most rows and entries that the length macros are tried with; SHEET_ROWS is more than three pages. */
enum { ROWS = 40, ENTRIES = 160, SHEET_ROWS = 150 };

/* Solves the n by n identity with b = 0, lent buffers of these lengths. */
static uint32_t solve_identity(size_t n, size_t starts_len, size_t lists_len, size_t f64_len, size_t u32_len)
{
    static uint32_t row_starts[LP_STARTS_LEN(ROWS) + 1], marks[LP_SCRATCH_U32(ROWS) + 1];
    static uint32_t lower_starts[LP_STARTS_LEN(ROWS) + 1], upper_starts[LP_STARTS_LEN(ROWS) + 1];
    static uint16_t natural[ROWS];
    static double ones[ROWS], zeros[ROWS], pivots[ROWS], solution[ROWS], work[LP_SCRATCH_F64(ROWS) + 1];
    for (size_t i = 0; i < n; i++) {
        row_starts[i + 1] = (uint32_t)(i + 1);
        natural[i] = (uint16_t)i;
        ones[i] = 1.0;
    }
    return lp_solve_plain(n, row_starts, starts_len, natural, n, ones, n, natural, n, natural, n, zeros, n, 0.0,
                          lower_starts, lists_len, NONE, NONE, upper_starts, lists_len, NONE, NONE, pivots, n,
                          solution, n, work, f64_len, marks, u32_len, NONE);
}

/* Writes the file of a matrix of zeros, whose contents are not judged, into so many bytes. */
static uint32_t write_zeros(size_t n, size_t e, size_t file_len)
{
    static const uint32_t row_starts[LP_STARTS_LEN(ROWS)];
    static const uint16_t numbers[ENTRIES];
    static const double zeros[ENTRIES];
    static uint8_t file[LP_FILE_BYTES(ROWS, ENTRIES) + 512];
    return lp_write_matrix(n, row_starts, LP_STARTS_LEN(n), numbers, e, zeros, e, numbers, n, numbers, n, zeros, n,
                           file, file_len, NONE);
}

/* Writes factors of zeros, with so many entries in the last lower row and in T(0), into so many bytes. */
static uint32_t write_arrow(size_t n, uint32_t below, uint32_t above, size_t file_len)
{
    static uint32_t lower_starts[LP_STARTS_LEN(ROWS)], upper_starts[LP_STARTS_LEN(ROWS)];
    static uint16_t natural[ROWS + 1];
    static const double zeros[ROWS];
    static uint8_t file[LP_FACTOR_BYTES(ROWS, ROWS, ROWS) + 512];
    for (size_t i = 0; i <= n; i++) {
        lower_starts[i] = i == n ? below : 0;
        upper_starts[i] = i == 0 ? 0 : above;
        natural[i] = (uint16_t)i;
    }
    return lp_write_factors(n, below, above, below == 0 ? 0 : above, natural, n, natural, n,
                            lower_starts, LP_STARTS_LEN(n), natural, below, zeros, below,
                            upper_starts, LP_STARTS_LEN(n), natural + 1, above, zeros, above, zeros, n,
                            file, file_len, NONE);
}

static void factor_lengths(void)
{
    for (uint32_t n = 1; n <= ROWS; n++)
        for (uint32_t below = 0; below < n; below++) {
            uint32_t above = (7 * below) % n;
            size_t bytes = LP_FACTOR_BYTES(n, below, above);
            expect(write_arrow(n, below, above, bytes) == LP_DONE, "the bytes of a factor file");
            expect(write_arrow(n, below, above, bytes + 1) == LP_LENGTHS, "one byte of a factor file more");
            expect(write_arrow(n, below, above, bytes + 512) == LP_LENGTHS, "one block of a factor file more");
        }
    const uint32_t many = UINT32_MAX;
    expect(LP_FACTOR_BYTES(many, 0, 0) == 87262828032 && LP_FACTOR_BYTES(1, many, 0) == 43631414272
           && LP_FACTOR_BYTES(1, 0, many) == 43631414272, "bytes of factors beyond 32 bits");
    expect(LP_FACTOR_BYTES(1 + 1, 40 + 3, 0) == 512 && LP_FACTOR_BYTES(1 + 1, 0, 40 + 4) == 1024, "sums of entries");
}

/* Makes a load of n rows, lent so many slots of columns and of values. */
static uint32_t load_slots(size_t n, size_t columns_len, size_t values_len)
{
    static uint32_t row_starts[LP_STARTS_LEN(ROWS)];
    static uint16_t own_columns[LP_LOAD_SLOTS(ROWS) + 1], rows[ROWS], order_of_columns[ROWS];
    static double numbers[LP_LOAD_SLOTS(ROWS) + 1], ones[ROWS];
    return lp_test_load(n, 1, row_starts, LP_STARTS_LEN(n), own_columns, columns_len, numbers, values_len, rows, n,
                        order_of_columns, n, ones, n, NONE);
}

/* Prints the fill of the n by n identity into so many bytes. */
static uint32_t print_identity(size_t n, size_t sheet_len)
{
    static uint32_t row_starts[LP_STARTS_LEN(SHEET_ROWS)], marks[LP_SCRATCH_U32(SHEET_ROWS)];
    static uint32_t lower_starts[LP_STARTS_LEN(SHEET_ROWS)], upper_starts[LP_STARTS_LEN(SHEET_ROWS)];
    static uint32_t lower_runs[SHEET_ROWS], upper_runs[SHEET_ROWS];
    static uint16_t natural[SHEET_ROWS];
    static double work[LP_SCRATCH_F64(SHEET_ROWS)];
    static uint8_t pages[LP_SHEET_BYTES(SHEET_ROWS) + 2050];
    for (size_t i = 0; i < n; i++) {
        row_starts[i + 1] = (uint32_t)(i + 1);
        natural[i] = (uint16_t)i;
    }
    return lp_fill_sheet(n, row_starts, LP_STARTS_LEN(n), natural, n, natural, n, natural, n,
                         lower_starts, LP_STARTS_LEN(n), lower_runs, n, NONE, NONE,
                         upper_starts, LP_STARTS_LEN(n), upper_runs, n, NONE, NONE,
                         work, LP_SCRATCH_F64(n), marks, LP_SCRATCH_U32(n), pages, sheet_len, NONE);
}

static void sheet_lengths(void)
{
    for (size_t n = 1; n <= SHEET_ROWS; n++) {
        size_t s = LP_SHEET_BYTES(n);
        expect(print_identity(n, s) == LP_DONE, "the bytes of a sheet");
        expect(print_identity(n, s + 1) == LP_LENGTHS, "one byte of a sheet more");
        expect(print_identity(n, s + 2050) == LP_LENGTHS, "one page more");
    }
}

/* An argument is evaluated once. */
static void evaluated_once(void)
{
    size_t n = 0, e = 0;
    expect(LP_STARTS_LEN(n++) == 1 && LP_SCRATCH_F64(n++) == 3 && LP_SCRATCH_U32(n++) == 24, "once, starts, scratch");
    expect(LP_LOAD_SLOTS(n++) == 12 && LP_SHEET_BYTES(n++) == 2050 && n == 5, "once, load and sheet");
    expect(LP_FILE_BYTES(n++, e++) == 512 && n == 6 && e == 1, "once, file");
    size_t below = 0, above = 0;
    expect(LP_FACTOR_BYTES(n++, below++, above++) == 512 && n == 7 && below == 1 && above == 1, "once, factors");
}

/* What the length macros give is taken, and one more is refused. */
static void lengths(void)
{
    for (size_t n = 1; n <= ROWS; n++) {
        size_t s = LP_STARTS_LEN(n), f = LP_SCRATCH_F64(n), u = LP_SCRATCH_U32(n);
        expect(solve_identity(n, s, s, f, u) == LP_DONE, "the lengths of the macros");
        expect(solve_identity(n, s + 1, s, f, u) == LP_LENGTHS, "one row start more");
        expect(solve_identity(n, s, s + 1, f, u) == LP_LENGTHS, "one list start more");
        expect(solve_identity(n, s, s, f + 1, u) == LP_LENGTHS, "one slot of scratch_f64 more");
        expect(solve_identity(n, s, s, f, u + 1) == LP_LENGTHS, "one slot of scratch_u32 more");
        size_t l = LP_LOAD_SLOTS(n);
        expect(load_slots(n, l, l) == LP_DONE, "the slots of a load");
        expect(load_slots(n, l + 1, l) == LP_LENGTHS, "one column of a load more");
        expect(load_slots(n, l, l + 1) == LP_LENGTHS, "one value of a load more");
        for (size_t e = 0; e <= ENTRIES; e++) {
            expect(write_zeros(n, e, LP_FILE_BYTES(n, e)) == LP_DONE, "the bytes of a file");
            expect(write_zeros(n, e, LP_FILE_BYTES(n, e) + 1) == LP_LENGTHS, "one byte more");
            expect(write_zeros(n, e, LP_FILE_BYTES(n, e) + 512) == LP_LENGTHS, "one block more");
        }
    }
    const uint32_t many = UINT32_MAX;
    expect(LP_STARTS_LEN(many) == 4294967296 && LP_SCRATCH_U32(many) == 34359738368, "sums beyond 32 bits");
    expect(LP_SCRATCH_F64(many) == 12884901885 && LP_FILE_BYTES(many, 0) == 69810262528, "products beyond 32 bits");
    expect(LP_FILE_BYTES(1 + 1, 40 + 6) == 512 && 2 * LP_STARTS_LEN(1 + 1) == 6, "arguments that are sums");
    expect(LP_SCRATCH_F64(1 + 1) == 6 && 2 * LP_SCRATCH_U32(1 + 1) == 48, "arguments that are sums");
    expect(LP_LOAD_SLOTS(many) == 17179869180 && 2 * LP_LOAD_SLOTS(1 + 1) == 16, "slots of a load");
    expect(LP_SHEET_BYTES(many) == 179687407700 && 8200 / LP_SHEET_BYTES(49 + 1) == 2, "bytes of a sheet");
    expect(LP_SHEET_BYTES(LP_MAX_ROWS) == 84 * 2050, "bytes of the longest sheet");
}

/* Solves value * x = b, which needs no slots: all four stores are NULL. */
static uint32_t solve_one(double value, double b, double *solution)
{
    const uint32_t one_row[2] = {0, 1};
    const uint16_t zero[1] = {0};
    uint32_t lower_starts[2], upper_starts[2], marks[16];
    double pivot[1], work[3];
    return lp_solve_plain(1, LENT(one_row), LENT(zero), &value, 1, LENT(zero), LENT(zero), &b, 1, 0.0,
                          LENT(lower_starts), NONE, NONE, LENT(upper_starts), NONE, NONE,
                          LENT(pivot), solution, 1, LENT(work), LENT(marks), NONE);
}

/* A buffer of length 0 may be NULL in every call. (The tests in Rust try each buffer by itself.) */
static void nulls(void)
{
    double solution = 0.0;
    expect(solve_one(2.0, 8.0, &solution) == LP_DONE && solution == 4.0, "n = 1 with NULL stores and report");
    expect(lp_solve_plain(0, NONE, NONE, NONE, NONE, NONE, NONE, 0.0, NONE, NONE, NONE, NONE, NONE, NONE, NONE, NONE,
                          NONE, NONE, NONE) == LP_ROWS, "plain solve, n = 0, all NULL");
    expect(lp_solve_plain(1, NONE, NONE, NONE, NONE, NONE, NONE, 0.0, NONE, NONE, NONE, NONE, NONE, NONE, NONE, NONE,
                          NONE, NONE, NONE) == LP_LENGTHS, "plain solve, all NULL");
    expect(lp_solve_shared(1, NONE, NONE, NONE, NONE, NONE, NONE, 0.0, NONE, NONE, NONE, NONE, NONE, NONE, NONE, NONE,
                           NONE, NONE, NONE, NONE, NONE) == LP_LENGTHS, "shared solve, all NULL");
    expect(lp_solve_row(1, NONE, NONE, NONE, NONE, NONE, NONE, 0.0, NONE, NONE, NONE, NONE, NONE, NONE, NONE, NONE,
                        NONE) == LP_LENGTHS, "row solve, all NULL");
    expect(lp_structure_plain(1, NONE, NONE, NONE, NONE, NONE, NONE, NONE, NONE, NONE, NONE, NONE, NONE,
                              NONE) == LP_LENGTHS, "plain structure, all NULL");
    expect(lp_structure_shared(1, NONE, NONE, NONE, NONE, NONE, NONE, NONE, NONE, NONE, NONE, NONE, NONE, NONE, NONE,
                               NONE) == LP_LENGTHS, "shared structure, all NULL");
    expect(lp_fill_sheet(1, NONE, NONE, NONE, NONE, NONE, NONE, NONE, NONE, NONE, NONE, NONE, NONE, NONE, NONE, NONE,
                         NONE) == LP_LENGTHS, "fill sheet, all NULL");
    expect(lp_refactor_plain(1, NONE, NONE, NONE, NONE, NONE, NONE, 0.0, NONE, NONE, NONE, NONE, NONE, NONE, NONE, NONE,
                             NONE, NONE, NONE) == LP_LENGTHS, "plain refactor, all NULL");
    expect(lp_refactor_shared(1, NONE, NONE, NONE, NONE, NONE, NONE, 0.0, NONE, NONE, NONE, NONE, NONE, NONE, NONE,
                              NONE, NONE, NONE, NONE, NONE, NONE) == LP_LENGTHS, "shared refactor, all NULL");
    expect(lp_resolve_plain(1, NONE, NONE, NONE, NONE, NONE, NONE, NONE, NONE, NONE, NONE, NONE, NONE, NONE,
                            NONE) == LP_LENGTHS, "plain, another right side, all NULL");
    expect(lp_resolve_shared(1, NONE, NONE, NONE, NONE, NONE, NONE, NONE, NONE, NONE, NONE, NONE, NONE, NONE, NONE,
                             NONE, NONE) == LP_LENGTHS, "shared, another right side, all NULL");
    expect(lp_list_plain(LP_UPPER, 0, 1, NONE, NONE, NONE, NONE, NONE) == LP_DONE, "plain list, all NULL");
    expect(lp_list_shared(LP_UPPER, 0, 1, NONE, NONE, NONE, NONE, NONE, NONE, NONE) == LP_DONE,
           "shared list, all NULL");
    expect(lp_file_shape(NONE, NONE) == LP_FILE_LENGTH, "shape, all NULL");
    expect(lp_read_matrix(NONE, NONE, NONE, NONE, NONE, NONE, NONE, NONE) == LP_FILE_LENGTH, "read, all NULL");
    expect(lp_write_matrix(1, NONE, NONE, NONE, NONE, NONE, NONE, NONE, NONE) == LP_LENGTHS, "write, all NULL");
    expect(lp_factor_shape(NONE, NONE) == LP_FILE_LENGTH, "shape of factors, all NULL");
    expect(lp_read_factors(NONE, NONE, NONE, NONE, NONE, NONE, NONE, NONE, NONE, NONE, NONE) == LP_FILE_LENGTH,
           "read factors, all NULL");
    expect(lp_write_factors(1, 0, 0, 0, NONE, NONE, NONE, NONE, NONE, NONE, NONE, NONE, NONE, NONE,
                            NONE) == LP_LENGTHS, "write factors, all NULL");
    expect(lp_test_load(1, 1, NONE, NONE, NONE, NONE, NONE, NONE, NONE) == LP_LENGTHS, "load, all NULL");
}

/* Bits of MXCSR, the register of the floating-point environment. */
enum {
    FLAGS = 0x003F,
    DENORMALS_ARE_ZERO = 0x0040,
    INVALID_MASKED = 0x0080,
    ZERO_DIVISION_MASKED = 0x0200,
    OVERFLOW_MASKED = 0x0400,
    DEFAULT = 0x1F80,
    ROUND_UP = 0x4000,
    FLUSH_TO_ZERO = 0x8000
};

/* solve_one in another environment; the default one is there again afterwards. */
static uint32_t solve_in(unsigned environment, double value, double b, double *solution)
{
    _mm_setcsr(environment);
    uint32_t number = solve_one(value, b, solution);
    _mm_setcsr(DEFAULT);
    return number;
}

/* The default environment gives x, and the other one does not. */
static void expect_other(unsigned environment, double value, double x, const char *what)
{
    double solution = 0.0;
    expect(solve_in(DEFAULT, value, 1.0, &solution) == LP_DONE && solution == x, "the default environment");
    solution = -1.0;
    uint32_t number = solve_in(environment, value, 1.0, &solution);
    expect(number != LP_DONE || solution != x, what);
}

static jmp_buf before_trap;

static void trapped(int signal_number)
{
    longjmp(before_trap, signal_number);
}

/* Whether solving with the value ends in a trap. */
static int traps(unsigned environment, double value)
{
    double solution;
    void (*usual)(int) = signal(SIGFPE, trapped);
    int signal_number = setjmp(before_trap);
    if (signal_number == 0)
        solve_in(environment, value, 1.0, &solution);
    _mm_setcsr(DEFAULT);
    signal(SIGFPE, usual);
    return signal_number == SIGFPE;
}

static void environments(void)
{
    double solution = 0.0;
    expect((_mm_getcsr() & ~(unsigned)FLAGS) == DEFAULT, "a program starts in the default environment");
    expect_other(DEFAULT | FLUSH_TO_ZERO | DENORMALS_ARE_ZERO, 0x1p-1023, 0x1p1023, "flushing changes 2^-1023");
    expect_other(DEFAULT | DENORMALS_ARE_ZERO, 0x1p-1023, 0x1p1023, "denormals as zero change 2^-1023");
    expect_other(DEFAULT | FLUSH_TO_ZERO, 0x1p1023, 0x1p-1023, "flush to zero changes 2^1023");
    expect_other(DEFAULT | ROUND_UP, 3.0, 0x1.5555555555555p-2, "rounding up changes 3");
    expect(solve_in(DEFAULT | DENORMALS_ARE_ZERO, 0x1p-1023, 1.0, &solution) == LP_ZERO_PIVOT,
           "where denormals are zero, 2^-1023 is a zero pivot");
    expect(solve_in(DEFAULT, 0x1p-1024, 1.0, &solution) == LP_OVERFLOW, "2^-1024 overflows");
    expect(!traps(DEFAULT, 0x1p-1024), "the default environment does not trap");
    expect(traps(DEFAULT & ~OVERFLOW_MASKED, 0x1p-1024), "with a trap for overflow 2^-1024 ends in a signal");
    expect(!traps(DEFAULT & ~ZERO_DIVISION_MASKED, 0x1p-1024) && !traps(DEFAULT & ~ZERO_DIVISION_MASKED, 0.0),
           "nothing is divided by zero");
    expect(!traps(DEFAULT & ~INVALID_MASKED, 3.0), "a solve that is done has no invalid operation");
}

int main(void)
{
    file_and_back();
    plain_form();
    shared_form();
    row_form();
    floors();
    cited_twice();
    fill_sheet();
    test_load();
    lengths();
    factor_lengths();
    sheet_lengths();
    evaluated_once();
    nulls();
    environments();
    return failures == 0 ? 0 : 1;
}
