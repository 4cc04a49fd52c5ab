/* Coinravel: the analysis of a sparse symmetric matrix for its LDL^T factor, proved to meet its contract.
 *
 * Link with libface.a (x86-64 Linux), which `harness/archives` writes to target/staticlib/. It calls nothing but memset,
 * keeps no state between calls, and allocates nothing: every table is the caller's.
 *
 * A matrix is its upper triangle by columns, of order n with m entries. Column c has the entries colptr[c] up to, not
 * including, colptr[c + 1] of rowval and nzval; its rows rise strictly, are at most c, and there is at least one.
 *
 *     [ 4 1 2 ]     n = 3, m = 5
 *     [ . 3 . ]     colptr = 0, 1, 3, 5
 *     [ . . 5 ]     rowval = 0, 0, 1, 0, 2     nzval = 4, 1, 3, 2, 5
 *
 * Who lends what, and how long it is:
 *
 *     table    length       read or written
 *     status   >= 6         both     the status, in words: see below
 *     value    1            written  a refusal's value; 0 where it has none, which is always so here
 *     colptr   n + 1        read     the column pointers; the first is 0, the last m
 *     rowval   m            read     the rows; its length is m
 *     nzval    m            read     the values, any double
 *     perm     n            read     the ordering: perm[new] = old, each of 0 .. n-1 once
 *     signs    0 or n       read     the signs of the pivots, -1, 0 or 1; none means 1 for all
 *     pc       >= n + 1     written  the column pointers of the reordered triangle
 *     pr       >= m         written  its rows, which need not rise within a column
 *     pv       >= m         written  its values
 *     map      >= m         written  for each entry of the input its place in pr and pv
 *     etree    >= n         written  the parent of each unknown, 4294967295 for none
 *     lnz      >= n         written  the entries of each column of L
 *     dsigns   >= n         written  the signs in the new order
 *     iperm    >= n         scratch
 *     next     >= n         scratch
 *     work     >= n         scratch
 *
 * A written table that is longer keeps what lies past the needed part.
 *
 * The status is six words: the phase, n, m, the entries of L, the pivots above zero, the pivots shifted. The phase is
 * 0 Empty, 1 Analysed, 2 Logical, 3 Numeric or 4 Failed; any other word is read as Empty. Six zeros are a new status. The
 * analysis may be called from any status, and leaves 1, n, m, the sum of lnz, 0, 0; words past the six are kept.
 *
 * The answer is 0, or the lowest number that applies:
 *
 *     0   done
 *     2   nrows is not n
 *     3   n is not in 1 .. 2048, or m is above 65536
 *     4   a table does not have its length above (this is said first where status has fewer than 6 words)
 *     5   the pointers do not start at 0, fall, or do not end at m; or a row is n or more
 *     6   a row is above its column
 *     7   a column has no entry
 *     8   the rows of a column do not rise strictly
 *     9   perm is not each of 0 .. n-1 once
 *     10  a sign is none of -1, 0, 1
 *
 * (1 and 11 to 14 are the numbers of other calls.) A call that is refused changes nothing but value and scratch.
 *
 * Asked of the caller, and not tested: each pointer is valid for its length, aligned, and not NULL even where the length
 * is 0; no written table or scratch overlaps another table. Not promised: what scratch holds afterwards, and the sign and
 * payload of a NaN in pv. No number depends on what scratch held before.
 */
#ifndef COINRAVEL_H
#define COINRAVEL_H

#include <stddef.h>
#include <stdint.h>

#define COINRAVEL_STATUS_WORDS 6
#define COINRAVEL_NONE UINT32_C(4294967295)

#ifdef __cplusplus
extern "C" {
#endif

uint32_t coinravel_analyse(
    uint64_t *status, size_t status_len,
    uint64_t *value,
    size_t nrows, size_t n,
    const uint32_t *colptr, size_t colptr_len,
    const uint32_t *rowval, size_t rowval_len,
    const double *nzval, size_t nzval_len,
    const uint32_t *perm, size_t perm_len,
    const int8_t *signs, size_t signs_len,
    uint32_t *pc, size_t pc_len,
    uint32_t *pr, size_t pr_len,
    double *pv, size_t pv_len,
    uint32_t *map, size_t map_len,
    uint32_t *etree, size_t etree_len,
    uint32_t *lnz, size_t lnz_len,
    int8_t *dsigns, size_t dsigns_len,
    uint32_t *iperm, size_t iperm_len,
    uint32_t *next, size_t next_len,
    uint32_t *work, size_t work_len);

#ifdef __cplusplus
}
#endif

#endif
