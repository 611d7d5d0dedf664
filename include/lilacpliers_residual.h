/* Lilacpliers: how far off the equation of a row is. This call of libcapi.a stands beside those of lilacpliers.h, in a
 * header of its own, so that nothing of theirs changes. What that header says of buffers, lengths, limits, numbers and
 * the floating-point environment holds here too; with a trap for overflow a refusal LP_RESIDUAL becomes a signal. */
#ifndef LILACPLIERS_RESIDUAL_H
#define LILACPLIERS_RESIDUAL_H

#include "lilacpliers.h"

#ifdef __cplusplus
extern "C" {
#endif

/* The version of this call, raised whenever it, its number or what its buffers hold changes. */
#define LP_RESIDUAL_VERSION 1

/* The number that this call can return beside 0 to 7. Of those, 5 means that the row is not below n, and names that row;
 * 6 names an index of the values, in b plus e, in x plus e + n. */
#define LP_RESIDUAL 22        /* a result on the way to a residual or its width is not finite: own row */

/* Tells how far off a row's equation is at x, by own column, such as a solve left it: pair[0] is the residual and
 * pair[1] its width, as far as pair_len goes. The residual starts as b[row] and subtracts each product value * x in
 * stored order; a column that stands several times is so many entries. T starts as the magnitude of b[row] and adds
 * each product's magnitude; with q entries, the width is T * ((q + 2) * 2^-52) + q * 2^-1074; each operation is rounded
 * once. The exact residual of the stored numbers is never farther from pair[0] than pair[1]. With S the exact sum of
 * the magnitudes of b[row] and of all products, pair[1] is at most (2q + 10) * S / 2^53 + (2q + 4) / 2^1074.
 * Lengths: n + 1 for starts, e for columns and values, n for b and x.
 * Asks 1 to 4, 5 (the row is not below n), 6 (values, b, then x plus e + n), 7 (of that row only), then 22. A refusal
 * writes nothing but the report. report[0] is the place; there are no counts. */
uint32_t lp_residual(
    size_t n,
    const uint32_t *starts, size_t starts_len,
    const uint16_t *columns, size_t columns_len,
    const double *values, size_t values_len,
    const double *b, size_t b_len,
    const double *x, size_t x_len,
    uint32_t row,
    double *pair, size_t pair_len,
    uint64_t *report, size_t report_len);

#ifdef __cplusplus
}
#endif

#endif
