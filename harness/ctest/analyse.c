/* The header and the archive together: the arrow of document 01 analysed in two orderings, and one refusal. */
#include "coinravel.h"
#include <stdio.h>
#include <string.h>

#define N 3
#define M 5

static uint64_t status[COINRAVEL_STATUS_WORDS], value;
static uint32_t pc[N + 1], pr[M], map[M], etree[N], lnz[N], scratch[3][N];
static double pv[M];
static int8_t no_signs[1], dsigns[N];

static uint32_t analyse(const uint32_t *perm)
{
    static const uint32_t colptr[] = {0, 1, 3, 5}, rowval[] = {0, 0, 1, 0, 2};
    static const double nzval[] = {4, 1, 3, 2, 5};
    return coinravel_analyse(status, COINRAVEL_STATUS_WORDS, &value, N, N, colptr, N + 1, rowval, M, nzval, M, perm, N,
                             no_signs, 0, pc, N + 1, pr, M, pv, M, map, M, etree, N, lnz, N, dsigns, N, scratch[0], N,
                             scratch[1], N, scratch[2], N);
}

static int failed;

static void same(const char *name, const void *got, const void *wanted, size_t size)
{
    if (memcmp(got, wanted, size) != 0) {
        printf("%s differs\n", name);
        failed = 1;
    }
}

#define SAME(table, type, ...) same(#table, table, (const type[]){__VA_ARGS__}, sizeof(table))

static void number(uint32_t got, uint32_t wanted)
{
    same("the number", &got, &wanted, sizeof(got));
}

int main(void)
{
    number(analyse((const uint32_t[]){0, 1, 2}), 0);
    SAME(etree, uint32_t, 1, 2, COINRAVEL_NONE);
    SAME(lnz, uint32_t, 2, 1, 0);
    SAME(status, uint64_t, 1, 3, 5, 3, 0, 0);

    number(analyse((const uint32_t[]){2, 1, 0}), 0);
    SAME(pc, uint32_t, 0, 1, 2, 5);
    SAME(pr, uint32_t, 0, 1, 2, 1, 0);
    SAME(pv, double, 5, 3, 4, 1, 2);
    SAME(map, uint32_t, 2, 3, 1, 4, 0);
    SAME(etree, uint32_t, 2, 2, COINRAVEL_NONE);
    SAME(lnz, uint32_t, 1, 1, 0);
    SAME(dsigns, int8_t, 1, 1, 1);

    number(analyse((const uint32_t[]){1, 1, 0}), 9);
    SAME(lnz, uint32_t, 1, 1, 0);
    SAME(status, uint64_t, 1, 3, 5, 2, 0, 0);
    puts(failed ? "the C face differs" : "the C face agrees");
    return failed;
}
