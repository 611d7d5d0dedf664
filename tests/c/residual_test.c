/* Asks for the residual and the width of the rows of the paper's 2 by 2 file through the C interface, tries NULL for
 * buffers of length 0, and shows that a trap for overflow makes 22 a signal.
 * The exit status is 0 if every answer is as the header promises. */
#include "lilacpliers_residual.h"

#include <math.h>
#include <setjmp.h>
#include <signal.h>
#include <stdio.h>
#include <string.h>
#include <xmmintrin.h>

#if LP_VERSION != 7 || LP_RESIDUAL_VERSION != 1
#error "this test is written for version 7 of the interface and version 1 of the residual"
#endif

#define NONE NULL, 0
#define LENGTH(list) (sizeof(list) / sizeof((list)[0]))
#define LENT(list) (list), LENGTH(list)

enum { N = 2, E = 4 };

static int failures = 0;

static void expect(int holds, const char *what)
{
    if (!holds) {
        fprintf(stderr, "not as expected: %s\n", what);
        failures += 1;
    }
}

/* Rows (2, 4), (1, 4), b = (10, 9). */
static const uint32_t starts[LP_STARTS_LEN(N)] = {0, 2, 4};
static const uint16_t columns[E] = {0, 1, 0, 1};
static const double values[E] = {2, 4, 1, 4};
static const double right[N] = {10, 9};
static uint64_t report[4];

/* Asks for a row of the example at x, into a pair that held other numbers. */
static uint32_t residual_of(uint32_t row, const double *scores, double pair[3])
{
    pair[0] = pair[1] = pair[2] = 7.0;
    memset(report, 0xA5, sizeof report);
    return lp_residual(N, LENT(starts), LENT(columns), LENT(values), LENT(right), scores, N, row, pair, 3,
                       LENT(report));
}

static void residuals(void)
{
    static const double good[N] = {1, 2}, off[N] = {1, 2.125}, wide[N] = {1e308, 1e308}, none[N] = {0, INFINITY};
    double pair[3];
    expect(residual_of(0, good, pair) == LP_DONE && report[0] == 0, "residual");
    expect(pair[0] == 0.0 && pair[1] == 80 * 0x1p-52 && pair[2] == 7.0, "residual and width of row 0");
    expect(report[1] == report[3] && report[1] == 0xA5A5A5A5A5A5A5A5, "a residual's report has one slot");
    expect(residual_of(1, off, pair) == LP_DONE && pair[0] == -0.5 && pair[1] == 74 * 0x1p-52, "row 1, off by a half");
    expect(residual_of(N, good, pair) == LP_ORDER && report[0] == N, "residual, a row not below n");
    expect(pair[0] == 7.0 && pair[1] == 7.0, "5 writes nothing but the report");
    expect(residual_of(UINT32_MAX, good, pair) == LP_ORDER && report[0] == UINT32_MAX, "residual, the greatest row");
    expect(residual_of(0, none, pair) == LP_NOT_FINITE && report[0] == E + N + 1, "residual, x not finite");
    expect(residual_of(1, wide, pair) == LP_RESIDUAL && report[0] == 1, "residual, a product over the greatest number");
    expect(pair[0] == 7.0 && pair[1] == 7.0, "22 writes nothing but the report");
    expect(lp_residual(1, NONE, NONE, NONE, NONE, NONE, 0, NONE, NONE) == LP_LENGTHS, "residual, all NULL");
}

/* Bits of MXCSR, the register of the floating-point environment. */
enum { OVERFLOW_MASKED = 0x0400, DEFAULT = 0x1F80 };

static jmp_buf before_trap;

static void trapped(int signal_number)
{
    longjmp(before_trap, signal_number);
}

/* Whether a residual that is refused with 22 ends in a trap. */
static int residual_traps(unsigned environment)
{
    static const double wide[N] = {1e308, 1e308};
    double pair[3];
    void (*usual)(int) = signal(SIGFPE, trapped);
    int signal_number = setjmp(before_trap);
    if (signal_number == 0) {
        _mm_setcsr(environment);
        residual_of(1, wide, pair);
    }
    _mm_setcsr(DEFAULT);
    signal(SIGFPE, usual);
    return signal_number == SIGFPE;
}

int main(void)
{
    residuals();
    expect(!residual_traps(DEFAULT), "the default environment does not trap in a residual");
    expect(residual_traps(DEFAULT & ~OVERFLOW_MASKED), "with a trap for overflow a residual ends in a signal");
    return failures == 0 ? 0 : 1;
}
