/* strides: checks what the library's call for the stride table answers and what it leaves in the buffer: the table of good weights beside
 * document 02's formula, buffers of every length, and each kind of bad weight in each of the ten places.
 * Prints 'strides: N checked, D differ'; ends with 1 if any differs. */
#include <stdio.h>
#include <string.h>

#include "nuqsillay.h"

enum { TABLE = 320, ROOM = 8 };

/* What stands in a buffer before a call. */
#define BEFORE 0x5E171CEDu

static unsigned checked, differ;

static uint32_t gcd(uint32_t x, uint32_t y)
{
    return y == 0 ? x : gcd(y, x % y);
}

/* A row: q at each middle and 1 elsewhere. Where n320 and n300 weigh the same and both are missing, n300 counts as given. */
static void make_row(const uint32_t *w, unsigned bits, uint32_t *row)
{
    bool missing[5];
    int first = 5, last = 0;
    for (int i = 0; i < 5; i++)
        missing[i] = (bits >> i & 1) == 0;
    if (missing[0] && w[0] == w[1])
        missing[1] = false;
    for (int i = 4; i >= 0; i--)
        if (missing[i])
            first = i;
    for (int i = 0; i < 5; i++)
        if (missing[i])
            last = i;
    for (int i = 0; i < 5; i++)
        row[i] = missing[i] && first < i && i < last ? (w[first] - w[last]) / gcd(w[first] - w[last], w[i] - w[last]) : 1;
}

/* Ten weights, with a buffer of so many numbers; refused or not, all of the memory must be as expected. */
static void check(const uint32_t *w, size_t len, uint32_t status, const char *what, size_t number)
{
    uint32_t out[TABLE + ROOM], right[TABLE + ROOM];
    for (size_t i = 0; i < TABLE + ROOM; i++)
        out[i] = right[i] = BEFORE;
    for (unsigned row = 0; status == 0 && row < 64; row++)
        make_row(row < 32 ? w : w + 5, row % 32, right + 5 * row);

    uint32_t answer = nuqsillay_strides(w[0], w[1], w[2], w[3], w[4], w[5], w[6], w[7], w[8], w[9], out, len);
    checked++;
    if (answer != status || memcmp(out, right, sizeof out) != 0) {
        differ++;
        printf("strides: %s %zu differs\n", what, number);
    }
}

/* The standard sets; the first folds; the second folds; both; the heaviest and the lightest weights. */
static const uint32_t good[][10] = {
    {61, 60, 40, 20, 10, 60, 60, 40, 20, 10}, {90, 90, 50, 30, 5, 100, 73, 41, 17, 1}, {100, 73, 41, 17, 1, 90, 90, 50, 30, 5},
    {7, 7, 5, 3, 2, 99, 99, 98, 97, 96},      {100, 99, 98, 97, 96, 5, 4, 3, 2, 1},    {100, 100, 99, 98, 97, 4, 4, 3, 2, 1},
};

static void check_good(void)
{
    for (size_t i = 0; i < sizeof good / sizeof *good; i++)
        for (size_t len = 0; len <= TABLE + ROOM; len++)
            check(good[i], len, len < TABLE ? NUQSILLAY_OUTPUT_SHORT : NUQSILLAY_OK, "good weights", i);
}

/* Bad weights are 18, with a buffer that is too short as well. */
static void check_bad(void)
{
    for (size_t place = 0; place < 10; place++) {
        const uint32_t kinds[] = {0, 101, 316, UINT32_MAX, place % 5 == 0 ? 59 : good[0][place - 1] + 1};
        for (size_t kind = 0; kind < sizeof kinds / sizeof *kinds; kind++) {
            uint32_t w[10];
            memcpy(w, good[0], sizeof w);
            w[place] = kinds[kind];
            for (size_t len = 0; len <= TABLE + 1; len++)
                check(w, len, NUQSILLAY_BAD_WEIGHTS, "bad weight", place);
        }
    }
    /* Only the first two may be equal. */
    for (size_t place = 2; place < 10; place++) {
        if (place == 5 || place == 6)
            continue;
        uint32_t w[10];
        memcpy(w, good[0], sizeof w);
        w[place] = w[place - 1];
        check(w, TABLE, NUQSILLAY_BAD_WEIGHTS, "equal weight", place);
    }
}

int main(void)
{
    /* Document 01: the q's of all five missing, not classic. */
    uint32_t row[5];
    make_row(good[0], 0, row);
    checked++;
    if (memcmp(row, (const uint32_t[]){1, 51, 17, 51, 1}, sizeof row) != 0) {
        differ++;
        puts("strides: the formula here differs from document 01");
    }
    check_good();
    check_bad();

    printf("strides: %u checked, %u differ\n", checked, differ);
    return differ != 0;
}
