/* Lilacpliers: sparse elimination. The C interface of the static library libcapi.a, which is for x86-64 only.
 * `rt lib` in crates/capi makes the library; a program rank.c is compiled and linked by
 *
 *   cc -Iinclude -c rank.c
 *   cc rank.o crates/capi/out/libcapi.a -o rank
 *
 * docs/GUIDE.md has a whole program.
 *
 * Every buffer is lent by the caller as a pointer and a length in slots; a buffer of length 0 may be NULL. A buffer
 * that a call writes, the report too, must overlap no other buffer of that call. Buffers that it only reads may
 * overlap: r and c may be one array. The library allocates nothing and keeps nothing between calls.
 *
 * The caller's floating-point environment must be the default of IEEE 754: rounding to nearest, no flush to zero, no
 * denormals as zero, no traps. In another one numbers and answers may be others than promised here (n = 1, b = 1, the
 * floor 0 and the value 2^-1023 give x = 2^1023, but LP_ZERO_PIVOT where denormals are zero), and with a trap for
 * overflow a refusal LP_OVERFLOW becomes a signal.
 *
 * Matrix, orders, right side, floor:
 *   n        rows, 1 to LP_MAX_ROWS
 *   starts   n + 1 row starts: row i has the entries starts[i] to starts[i + 1] - 1
 *   columns  e columns, e at most LP_MAX_ENTRIES, in any order within a row, the same one as often as need be: its
 *            values are added in stored order, from the first of them, each sum rounded, before the row is eliminated;
 *            a sum of zero keeps its position
 *   values   e numbers
 *   r, c     row order and column order: place k takes row r[k] and column c[k]
 *   b        right side, n numbers by own row
 *   floor    the calls that factor refuse a pivot whose magnitude is at most floor, which is finite and not negative;
 *            0 and -0 refuse a pivot of zero only
 *
 * Lists and factors, by elimination place:
 *   lower_starts, upper_starts   n + 1 list starts
 *   lower_runs, upper_runs       n run starts (shared form; row form: upper only)
 *   lower_index, upper_index     index stores, any length up to LP_MAX_SLOTS
 *   lower_values, upper_values   value stores, any length up to LP_MAX_SLOTS, also other than the index store's
 *   d                            n reciprocal pivots
 *   x                            the solution, n numbers by own column
 *   Plain: lower row k and upper list k stand at lower_starts[k] and upper_starts[k] of index and value store.
 *   Shared: lower column k and upper list k stand at lower_runs[k] and upper_runs[k] of the index store, and at
 *   lower_starts[k] and upper_starts[k] of the value store.
 *
 * Scratch: scratch_f64 has 3n slots, scratch_u32 has 8n + 8. Its contents on entry do not matter. LP_STARTS_LEN,
 * LP_SCRATCH_F64, LP_SCRATCH_U32, LP_FILE_BYTES, LP_LOAD_SLOTS and LP_SHEET_BYTES, below, give the lengths that n and e
 * fix, LP_FACTOR_BYTES that of a factor file.
 *
 * The answer: each call returns 0 for done or the number of the question answered with no (LP_..., below), and
 * fills `report` as far as report_len goes: report[0] is the place that the refusal names, 0 where it names none.
 * Structure and solve calls and lp_fill_sheet put three counts behind it: report[1] and report[2] are the filled
 * positions below and above the diagonal, report[3] the products; they are 0 after a refusal. What other calls put
 * there is said at each. Slots beyond report[3] are never written.
 *
 * What the buffers hold afterwards, unless a call says otherwise:
 *   LP_ROWS, LP_LENGTHS                nothing but the report was written
 *   LP_STARTS to LP_EMPTY_ROW, LP_FLOOR,
 *   LP_OTHER_STRUCTURE, LP_BAD_FACTORS scratch is zero, all else untouched
 *   LP_NULL_PIVOT to LP_OVERFLOW       scratch is zero, and so is every other buffer but x and sheet that the call
 *                                      writes
 *   done                               scratch is zero, and so are the unused slots of what the call writes
 * x and sheet are untouched by every refusal. A zero number is +0.
 */
#ifndef LILACPLIERS_H
#define LILACPLIERS_H

#include <stddef.h>
#include <stdint.h>

#ifdef __cplusplus
extern "C" {
#endif

/* The version of this interface. It is raised whenever a function, a number or what a buffer holds changes, so that
 * a caller can refuse to be compiled against another one. */
#define LP_VERSION 7

/* The limits of n, of e and of the slots of a store. */
#define LP_MAX_ROWS 4096
#define LP_MAX_ENTRIES 65536
#define LP_MAX_SLOTS 1048576

/* Lengths that n and e fix, as size_t; an argument is evaluated once. LP_STARTS_LEN: slots of starts, lower_starts and
 * upper_starts. LP_SCRATCH_F64 and LP_SCRATCH_U32: slots of scratch. LP_FILE_BYTES: bytes of a matrix file.
 * LP_FACTOR_BYTES: bytes of a factor file of so many lower and upper entries.
 * LP_LOAD_SLOTS: slots of columns and values of lp_test_load. LP_SHEET_BYTES: bytes of the sheet of lp_fill_sheet. */
#define LP_STARTS_LEN(n) ((size_t)(n) + 1)
#define LP_SCRATCH_F64(n) (3 * (size_t)(n))
#define LP_SCRATCH_U32(n) (8 * (size_t)(n) + 8)
#define LP_FILE_BYTES(n, e) (512 * ((12 + 16 * (size_t)(n) + 10 * (size_t)(e) + 503) / 504))
#define LP_FACTOR_BYTES(n, lower, upper) \
    (512 * ((28 + 20 * (size_t)(n) + 10 * (size_t)(lower) + 10 * (size_t)(upper) + 503) / 504))
#define LP_LOAD_SLOTS(n) (4 * (size_t)(n))
#define LP_SHEET_BYTES(n) (2050 * (((size_t)(n) + 48) / 49))

/* What a call returns: the number of each refusal, and behind the colon the place it names. */
#define LP_DONE 0
#define LP_ROWS 1             /* n is not within 1 to LP_MAX_ROWS */
#define LP_LENGTHS 2          /* a length is not as stated, or e or a store is over its limit */
#define LP_STARTS 3           /* starts do not begin at 0, fall, or do not end at e: own row */
#define LP_COLUMN 4           /* a column is not below n: index of the entry */
#define LP_ORDER 5            /* r or c is no order: index of the first number out of range or repeated; in c, plus n */
#define LP_NOT_FINITE 6       /* a value or a number of b is not finite: its index; in b, plus e */
#define LP_EMPTY_ROW 7        /* a row has no entry: own row */
#define LP_REPEATED 8         /* reserved; no longer answered, since a row may have a column several times */
#define LP_NULL_PIVOT 9       /* (k, k) is not filled: k */
#define LP_LOWER_SLOTS 10     /* the lower lists do not fit index or value store: k */
#define LP_UPPER_SLOTS 11     /* the upper lists do not fit index or value store: k */
#define LP_ZERO_PIVOT 12      /* the magnitude of the pivot is at most the floor (floor 0: a zero of either sign): k */
#define LP_OVERFLOW 13        /* a result is not finite, a sum of one column's values among them: the k at work */
#define LP_OTHER_STRUCTURE 14 /* presented lists are not those that the structure call places: k */
#define LP_BAD_FACTORS 15     /* presented lists are ill shaped, or a factor is not finite: k */
#define LP_FILE_LENGTH 16     /* the file's length is no positive multiple of 512 up to 2^41 */
#define LP_BLOCK 17           /* a block's number or checks are wrong: its number */
#define LP_FILE_SHAPE 18      /* e is over its limit, or blocks and closing zeros do not fit n and e */
#define LP_FLOOR 19           /* the floor is negative, infinite or not a number; asked right after 6 */
#define LP_FACTOR_SHAPE 20    /* blocks and closing zeros of a factor file do not fit n, lower and upper; before 2 */
#define LP_PRODUCTS 21        /* products is not the sum over the lists; last */

/* Sides of the diagonal, for lp_list_plain and lp_list_shared. Every number but LP_LOWER is the upper side. */
#define LP_LOWER 0
#define LP_UPPER 1

/* Finds the fill and places its lists in the plain form: lower rows and upper lists, one after another.
 * Asks 1 to 5, 7, then 9 to 11. Writes list starts, index stores, value stores (all zero) and scratch. */
uint32_t lp_structure_plain(
    size_t n,
    const uint32_t *starts, size_t starts_len,
    const uint16_t *columns, size_t columns_len,
    const uint16_t *r, size_t r_len,
    const uint16_t *c, size_t c_len,
    uint32_t *lower_starts, size_t lower_starts_len,
    uint16_t *lower_index, size_t lower_index_len,
    double *lower_values, size_t lower_values_len,
    uint32_t *upper_starts, size_t upper_starts_len,
    uint16_t *upper_index, size_t upper_index_len,
    double *upper_values, size_t upper_values_len,
    double *scratch_f64, size_t scratch_f64_len,
    uint32_t *scratch_u32, size_t scratch_u32_len,
    uint64_t *report, size_t report_len);

/* Finds the fill and places its lists in the shared form: lower columns and upper lists, sharing index slots.
 * Asks 1 to 5, 7, then 9 to 11. Writes list starts, run starts, index stores, value stores (all zero) and scratch. */
uint32_t lp_structure_shared(
    size_t n,
    const uint32_t *starts, size_t starts_len,
    const uint16_t *columns, size_t columns_len,
    const uint16_t *r, size_t r_len,
    const uint16_t *c, size_t c_len,
    uint32_t *lower_starts, size_t lower_starts_len,
    uint32_t *lower_runs, size_t lower_runs_len,
    uint16_t *lower_index, size_t lower_index_len,
    double *lower_values, size_t lower_values_len,
    uint32_t *upper_starts, size_t upper_starts_len,
    uint32_t *upper_runs, size_t upper_runs_len,
    uint16_t *upper_index, size_t upper_index_len,
    double *upper_values, size_t upper_values_len,
    double *scratch_f64, size_t scratch_f64_len,
    uint32_t *scratch_u32, size_t scratch_u32_len,
    uint64_t *report, size_t report_len);

/* Does what lp_structure_shared does and prints the fill on pages. Asks what it asks, and 2 also where sheet_len is not
 * LP_SHEET_BYTES(n), 2050 times the quotient n / 49 rounded up; gives the same place and counts, and leaves all buffers
 * but the sheet as it does. A refusal leaves the sheet untouched; done, every byte of it is written.
 * A page has 50 lines of 40 characters and a newline byte behind each, in ASCII; no zero byte ends the sheet. Line 1 of
 * a page has FILL in columns 1 to 4 and the page number, from 1, in columns 35 to 40; the other 49 take one place each,
 * from 0 on, and lines behind the last place are blank. Numbers have blanks on their left. The line of place k has in
 *   columns 1 to 6     k
 *   columns 7 to 14    r[k], its own row
 *   columns 15 to 22   the length of lower row k: the filled positions (k, j) with j < k (the lists placed are columns)
 *   columns 23 to 30   the length of upper list k
 *   columns 31 to 40   upper_runs[k]
 * Every number fits its columns for every matrix that is not refused. */
uint32_t lp_fill_sheet(
    size_t n,
    const uint32_t *starts, size_t starts_len,
    const uint16_t *columns, size_t columns_len,
    const uint16_t *r, size_t r_len,
    const uint16_t *c, size_t c_len,
    uint32_t *lower_starts, size_t lower_starts_len,
    uint32_t *lower_runs, size_t lower_runs_len,
    uint16_t *lower_index, size_t lower_index_len,
    double *lower_values, size_t lower_values_len,
    uint32_t *upper_starts, size_t upper_starts_len,
    uint32_t *upper_runs, size_t upper_runs_len,
    uint16_t *upper_index, size_t upper_index_len,
    double *upper_values, size_t upper_values_len,
    double *scratch_f64, size_t scratch_f64_len,
    uint32_t *scratch_u32, size_t scratch_u32_len,
    uint8_t *sheet, size_t sheet_len,
    uint64_t *report, size_t report_len);

/* Finds structure, factors and one solution, in the plain form.
 * Asks 1 to 6, 19, 7, then 9 to 13. Writes list starts, index and value stores, d, x and scratch. */
uint32_t lp_solve_plain(
    size_t n,
    const uint32_t *starts, size_t starts_len,
    const uint16_t *columns, size_t columns_len,
    const double *values, size_t values_len,
    const uint16_t *r, size_t r_len,
    const uint16_t *c, size_t c_len,
    const double *b, size_t b_len,
    double floor,
    uint32_t *lower_starts, size_t lower_starts_len,
    uint16_t *lower_index, size_t lower_index_len,
    double *lower_values, size_t lower_values_len,
    uint32_t *upper_starts, size_t upper_starts_len,
    uint16_t *upper_index, size_t upper_index_len,
    double *upper_values, size_t upper_values_len,
    double *d, size_t d_len,
    double *x, size_t x_len,
    double *scratch_f64, size_t scratch_f64_len,
    uint32_t *scratch_u32, size_t scratch_u32_len,
    uint64_t *report, size_t report_len);

/* Finds structure, factors and one solution, in the shared form.
 * Asks 1 to 6, 19, 7, then 9 to 13. Writes list starts, run starts, index and value stores, d, x and scratch. */
uint32_t lp_solve_shared(
    size_t n,
    const uint32_t *starts, size_t starts_len,
    const uint16_t *columns, size_t columns_len,
    const double *values, size_t values_len,
    const uint16_t *r, size_t r_len,
    const uint16_t *c, size_t c_len,
    const double *b, size_t b_len,
    double floor,
    uint32_t *lower_starts, size_t lower_starts_len,
    uint32_t *lower_runs, size_t lower_runs_len,
    uint16_t *lower_index, size_t lower_index_len,
    double *lower_values, size_t lower_values_len,
    uint32_t *upper_starts, size_t upper_starts_len,
    uint32_t *upper_runs, size_t upper_runs_len,
    uint16_t *upper_index, size_t upper_index_len,
    double *upper_values, size_t upper_values_len,
    double *d, size_t d_len,
    double *x, size_t x_len,
    double *scratch_f64, size_t scratch_f64_len,
    uint32_t *scratch_u32, size_t scratch_u32_len,
    uint64_t *report, size_t report_len);

/* Finds one solution without keeping L: the row form. It is lent the shared form's upper side and d as working room.
 * Asks 1 to 6, 19, 7, 9, then 11 to 13. Writes the upper side, d, x and scratch; afterwards all of it but x is zero,
 * also when it is done. */
uint32_t lp_solve_row(
    size_t n,
    const uint32_t *starts, size_t starts_len,
    const uint16_t *columns, size_t columns_len,
    const double *values, size_t values_len,
    const uint16_t *r, size_t r_len,
    const uint16_t *c, size_t c_len,
    const double *b, size_t b_len,
    double floor,
    uint32_t *upper_starts, size_t upper_starts_len,
    uint32_t *upper_runs, size_t upper_runs_len,
    uint16_t *upper_index, size_t upper_index_len,
    double *upper_values, size_t upper_values_len,
    double *d, size_t d_len,
    double *x, size_t x_len,
    double *scratch_f64, size_t scratch_f64_len,
    uint32_t *scratch_u32, size_t scratch_u32_len,
    uint64_t *report, size_t report_len);

/* Factors new values over lists that lp_structure_plain or lp_solve_plain left for the same pattern and orders, and
 * finds one solution. Asks 1 to 6, 19, 7, 14, then 12 and 13; 14 also where the structure call would give 9 to 11.
 * The floor may be another than the one given before. Reads list starts and index stores, and never changes them;
 * writes value stores, d, x and scratch. report[0] is the place; there are no counts. */
uint32_t lp_refactor_plain(
    size_t n,
    const uint32_t *starts, size_t starts_len,
    const uint16_t *columns, size_t columns_len,
    const double *values, size_t values_len,
    const uint16_t *r, size_t r_len,
    const uint16_t *c, size_t c_len,
    const double *b, size_t b_len,
    double floor,
    const uint32_t *lower_starts, size_t lower_starts_len,
    const uint16_t *lower_index, size_t lower_index_len,
    double *lower_values, size_t lower_values_len,
    const uint32_t *upper_starts, size_t upper_starts_len,
    const uint16_t *upper_index, size_t upper_index_len,
    double *upper_values, size_t upper_values_len,
    double *d, size_t d_len,
    double *x, size_t x_len,
    double *scratch_f64, size_t scratch_f64_len,
    uint32_t *scratch_u32, size_t scratch_u32_len,
    uint64_t *report, size_t report_len);

/* Does the same over the shared form's lists; run starts are read too. */
uint32_t lp_refactor_shared(
    size_t n,
    const uint32_t *starts, size_t starts_len,
    const uint16_t *columns, size_t columns_len,
    const double *values, size_t values_len,
    const uint16_t *r, size_t r_len,
    const uint16_t *c, size_t c_len,
    const double *b, size_t b_len,
    double floor,
    const uint32_t *lower_starts, size_t lower_starts_len,
    const uint32_t *lower_runs, size_t lower_runs_len,
    const uint16_t *lower_index, size_t lower_index_len,
    double *lower_values, size_t lower_values_len,
    const uint32_t *upper_starts, size_t upper_starts_len,
    const uint32_t *upper_runs, size_t upper_runs_len,
    const uint16_t *upper_index, size_t upper_index_len,
    double *upper_values, size_t upper_values_len,
    double *d, size_t d_len,
    double *x, size_t x_len,
    double *scratch_f64, size_t scratch_f64_len,
    uint32_t *scratch_u32, size_t scratch_u32_len,
    uint64_t *report, size_t report_len);

/* Solves for another right side b with factors that lp_solve_plain or lp_refactor_plain left. Asks 1, 2, 5, 6 (of b
 * only, its index), 15 and 13. Reads lists, factors and d, writes x and scratch; the matrix is not lent. report[0] is
 * the place; there are no counts. */
uint32_t lp_resolve_plain(
    size_t n,
    const uint16_t *r, size_t r_len,
    const uint16_t *c, size_t c_len,
    const double *b, size_t b_len,
    const uint32_t *lower_starts, size_t lower_starts_len,
    const uint16_t *lower_index, size_t lower_index_len,
    const double *lower_values, size_t lower_values_len,
    const uint32_t *upper_starts, size_t upper_starts_len,
    const uint16_t *upper_index, size_t upper_index_len,
    const double *upper_values, size_t upper_values_len,
    const double *d, size_t d_len,
    double *x, size_t x_len,
    double *scratch_f64, size_t scratch_f64_len,
    uint32_t *scratch_u32, size_t scratch_u32_len,
    uint64_t *report, size_t report_len);

/* Does the same with the factors of the shared form. */
uint32_t lp_resolve_shared(
    size_t n,
    const uint16_t *r, size_t r_len,
    const uint16_t *c, size_t c_len,
    const double *b, size_t b_len,
    const uint32_t *lower_starts, size_t lower_starts_len,
    const uint32_t *lower_runs, size_t lower_runs_len,
    const uint16_t *lower_index, size_t lower_index_len,
    const double *lower_values, size_t lower_values_len,
    const uint32_t *upper_starts, size_t upper_starts_len,
    const uint32_t *upper_runs, size_t upper_runs_len,
    const uint16_t *upper_index, size_t upper_index_len,
    const double *upper_values, size_t upper_values_len,
    const double *d, size_t d_len,
    double *x, size_t x_len,
    double *scratch_f64, size_t scratch_f64_len,
    uint32_t *scratch_u32, size_t scratch_u32_len,
    uint64_t *report, size_t report_len);

/* Finds a list of the plain form, LP_LOWER: row `place`, else upper list `place`, as a part of that side's index
 * store: report[0] is its offset there, report[1] its length. An n out of its limits, a wrong length on either side, a
 * place not below n, list starts that fall there, or a list outside its store give offset 0 and length 0.
 * Returns 0 always and writes nothing but the report. */
uint32_t lp_list_plain(
    uint32_t side, size_t place, size_t n,
    const uint32_t *lower_starts, size_t lower_starts_len,
    const uint16_t *lower_index, size_t lower_index_len,
    const uint32_t *upper_starts, size_t upper_starts_len,
    const uint16_t *upper_index, size_t upper_index_len,
    uint64_t *report, size_t report_len);

/* Finds a list of the shared form, LP_LOWER: column `place`, else upper list `place`, as lp_list_plain does; its
 * offset is its run start. */
uint32_t lp_list_shared(
    uint32_t side, size_t place, size_t n,
    const uint32_t *lower_starts, size_t lower_starts_len,
    const uint32_t *lower_runs, size_t lower_runs_len,
    const uint16_t *lower_index, size_t lower_index_len,
    const uint32_t *upper_starts, size_t upper_starts_len,
    const uint32_t *upper_runs, size_t upper_runs_len,
    const uint16_t *upper_index, size_t upper_index_len,
    uint64_t *report, size_t report_len);

/* Finds n and e of a matrix file: report[1] and report[2], 0 after a refusal.
 * Asks 16, 17, 1 and 18. Writes nothing but the report. */
uint32_t lp_file_shape(
    const uint8_t *file, size_t file_len,
    uint64_t *report, size_t report_len);

/* Reads a matrix file into buffers of n + 1, e, e, n, n and n slots, as lp_file_shape tells n and e.
 * Asks 16, 17, 1, 18 and 2; what the file holds is not judged. A number of the file that is any NaN becomes a NaN
 * whose bits are the compiler's choice: the same code unoptimised may give it the other sign.
 * A refusal writes nothing but the report. report[0] is the place; there are no counts. */
uint32_t lp_read_matrix(
    const uint8_t *file, size_t file_len,
    uint32_t *starts, size_t starts_len,
    uint16_t *columns, size_t columns_len,
    double *values, size_t values_len,
    uint16_t *r, size_t r_len,
    uint16_t *c, size_t c_len,
    double *b, size_t b_len,
    uint64_t *report, size_t report_len);

/* Writes a matrix file. Its length is LP_FILE_BYTES(n, e), 512 times the quotient (12 + 16n + 10e) / 504 rounded up;
 * e is columns_len.
 * Asks 1, 18 (e over its limit) and 2 (any length, the file's too); what the matrix holds is not judged, and every
 * NaN is written as 7FF8000000000000. A refusal writes nothing but the report. report[0] is the place; there are no
 * counts. */
uint32_t lp_write_matrix(
    size_t n,
    const uint32_t *starts, size_t starts_len,
    const uint16_t *columns, size_t columns_len,
    const double *values, size_t values_len,
    const uint16_t *r, size_t r_len,
    const uint16_t *c, size_t c_len,
    const double *b, size_t b_len,
    uint8_t *file, size_t file_len,
    uint64_t *report, size_t report_len);

/* Finds n, lower and upper of a factor file: report[1] to report[3], 0 after a refusal. lower and upper may be more
 * than a store may have slots; such a file cannot be read.
 * Asks 16, 17, 1 and 20. Writes nothing but the report. */
uint32_t lp_factor_shape(
    const uint8_t *file, size_t file_len,
    uint64_t *report, size_t report_len);

/* Reads a factor file: the plain form's factors and the orders that they were found by, as lp_resolve_plain takes them.
 * Lengths: n for r, c and d, n + 1 for the starts, at least lower and upper slots for the stores; unused slots end zero.
 * The report has the counts, as after lp_solve_plain. It needs 32 kB of the stack for the orders.
 * Asks 16, 17, 1, 20, 2, 5, 15 (stores end at lower and upper; starts that end elsewhere are at n - 1) and 21.
 * A refusal writes nothing but the report. */
uint32_t lp_read_factors(
    const uint8_t *file, size_t file_len,
    uint16_t *r, size_t r_len,
    uint16_t *c, size_t c_len,
    uint32_t *lower_starts, size_t lower_starts_len,
    uint16_t *lower_index, size_t lower_index_len,
    double *lower_values, size_t lower_values_len,
    uint32_t *upper_starts, size_t upper_starts_len,
    uint16_t *upper_index, size_t upper_index_len,
    double *upper_values, size_t upper_values_len,
    double *d, size_t d_len,
    uint64_t *report, size_t report_len);

/* Writes factors of the plain form, with the counts that the solve gave and its orders. The file's length is
 * LP_FACTOR_BYTES(n, lower, upper); the stores may be longer than the lists. It needs 16 kB of the stack.
 * Asks 1, 2 (any length, the file's too), 5, 15 and 21, as lp_read_factors does. What lp_solve_plain or
 * lp_refactor_plain left is never refused over buffers of these lengths.
 * A refusal writes nothing but the report. report[0] is the place; there are no counts. */
uint32_t lp_write_factors(
    size_t n,
    uint64_t lower, uint64_t upper, uint64_t products,
    const uint16_t *r, size_t r_len,
    const uint16_t *c, size_t c_len,
    const uint32_t *lower_starts, size_t lower_starts_len,
    const uint16_t *lower_index, size_t lower_index_len,
    const double *lower_values, size_t lower_values_len,
    const uint32_t *upper_starts, size_t upper_starts_len,
    const uint16_t *upper_index, size_t upper_index_len,
    const double *upper_values, size_t upper_values_len,
    const double *d, size_t d_len,
    uint8_t *file, size_t file_len,
    uint64_t *report, size_t report_len);

/* Makes a test load from n and a seed: row k gets 4.0 at column k, then three draws. A draw sets the seed to
 * (seed * 25173 + 13849) % 65536, and its column is (seed / 16) % n: it gets -1.0, or is skipped where the row has that
 * column already. The seed runs on from row to row. Entries stand as drawn, r and c are 0, 1, ..., b is all 1.0.
 * Lengths: n + 1 for starts, LP_LOAD_SLOTS(n) for columns and values, n for r, c and b. report[1] is e, 0 after a
 * refusal, and the last slot written; other calls are lent the first e slots of columns and values, the rest are zero.
 * Asks 1 and 2. A refusal writes nothing but the report. No claim is made on pivots. Beyond some 2600 rows the fill of
 * a load is over LP_MAX_SLOTS, and a solve gives LP_LOWER_SLOTS or LP_UPPER_SLOTS. */
uint32_t lp_test_load(
    size_t n,
    uint16_t seed,
    uint32_t *starts, size_t starts_len,
    uint16_t *columns, size_t columns_len,
    double *values, size_t values_len,
    uint16_t *r, size_t r_len,
    uint16_t *c, size_t c_len,
    double *b, size_t b_len,
    uint64_t *report, size_t report_len);

#ifdef __cplusplus
}
#endif

#endif
