/* Splits one play of 20 notes by Nearest and by Closest, knowing nothing but its accuracy in percent:
 *   gcc -O2 -Iinclude examples/split.c target/staticlib/libnuqsillay.a -lm -o target/split && target/split 57.8
 * After the six counts come the accuracy that they have and, for Nearest, how many points they lie below or above the target.
 * Try 5, where every split lies above it, and 101, which is refused. */
#include <inttypes.h>
#include <stdio.h>
#include <stdlib.h>

#include "nuqsillay.h"

/* Prints where the points lie; left is the target minus the points. */
static void print_left(int32_t left)
{
    if (left == 0)
        printf(", points on the target");
    else
        printf(", points %" PRId32 " %s the target", left < 0 ? -left : left, left < 0 ? "above" : "below");
}

/* Prints the split, or why there is none; 0 or 1 accordingly. */
static int split(const char *name, uint8_t method, double acc)
{
    const uint32_t n_objects = 20, n_hold_notes = 0;
    const bool classic = false;
    uint32_t n[8];
    double reached;

    /* The five counts, misses, passed and the holds passed are missing, so their numbers mean nothing. */
    uint32_t refused = nuqsillay_generate(n_objects, n_hold_notes, method, NUQSILLAY_BEST_CASE, classic, NUQSILLAY_HAS_ACC,
                                          0, 0, 0, 0, 0, 0, 0, false, 0, acc, n, 8);
    if (refused == 0)
        refused = nuqsillay_accuracy(n[0], n[1], n[2], n[3], n[4], n[5], classic, &reached);
    if (refused != 0) {
        fprintf(stderr, "%s: refused by check %" PRIu32 ", see include/nuqsillay.h\n", name, refused);
        return 1;
    }

    printf("%s:", name);
    for (int i = 0; i < 6; i++)
        printf(" %4" PRIu32, n[i]);
    printf("   %.4f %%", 100 * reached);
    /* For Closest it is 0, wherever the points lie. */
    if (method == NUQSILLAY_NEAREST)
        print_left((int32_t)n[7]);
    putchar('\n');
    return 0;
}

int main(int argc, char **argv)
{
    double acc = (argc > 1 ? strtod(argv[1], NULL) : 57.8) / 100;

    puts("          320  300  200  100   50 miss");
    int nearest = split("Nearest", NUQSILLAY_NEAREST, acc);
    int closest = split("Closest", NUQSILLAY_CLOSEST, acc);
    return nearest | closest;
}
