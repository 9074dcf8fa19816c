/* Splits a relay of three charts by one accuracy, in percent:
 *   gcc -O2 -Iinclude examples/relay.c target/staticlib/libnuqsillay.a -lm -o target/relay && target/relay 97.53
 * A line a chart, in their order; then the accuracy that all counts together have, and how many candidates were tried. Try 101, which is
 * refused. */
#include <inttypes.h>
#include <stdio.h>
#include <stdlib.h>

#include "nuqsillay.h"

enum { CHARTS = 3, PLACES = 1 + 6 * CHARTS };

int main(int argc, char **argv)
{
    /* Objects, hold notes and misses of each chart. */
    static const uint32_t plays[3 * CHARTS] = {1204, 312, 9, 480, 0, 0, 866, 97, 21};
    const bool classic = false;
    double acc = (argc > 1 ? strtod(argv[1], NULL) : 97.53) / 100, reached;
    uint32_t n[PLACES], sum[6] = {0};

    uint32_t refused = nuqsillay_relay(classic, true, acc, plays, 3 * CHARTS, n, PLACES);
    if (refused != 0) {
        fprintf(stderr, "refused by check %" PRIu32 ", see include/nuqsillay.h\n", refused);
        return 1;
    }

    puts("chart  320  300  200  100   50 miss");
    for (int chart = 0; chart < CHARTS; chart++) {
        printf("%5d", chart + 1);
        for (int i = 0; i < 6; i++) {
            sum[i] += n[1 + 6 * chart + i];
            printf(" %4" PRIu32, n[1 + 6 * chart + i]);
        }
        putchar('\n');
    }
    /* All six sums are at most the hits of the relay, so this is not refused. */
    nuqsillay_accuracy(sum[0], sum[1], sum[2], sum[3], sum[4], sum[5], classic, &reached);
    printf("%.4f %%, %" PRIu32 " tried\n", 100 * reached, n[0]);
    return 0;
}
