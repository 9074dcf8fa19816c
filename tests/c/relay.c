/* relay: checks what the library's call for a relay answers and what it leaves in the output: relays told by hand with outputs of every
 * length, relays beside the direct call for one play of all their hits, and each refusal with each other.
 * Prints 'relay: N checked, D differ'; ends with 1 if any differs. */
#include <math.h>
#include <stdio.h>
#include <string.h>

#include "nuqsillay.h"

/* The most charts, and the numbers that the output has of them. */
enum { CHARTS = 8, PLACES = 1 + 6 * CHARTS };
/* How much lies on both sides of an output; and the longest plays of which it is asked how many charts they are. */
enum { ROOM = 8, LONGEST = 3 * 260 };

/* What stands in an output before a call. */
#define BEFORE 0x5E171CEDu

struct relay {
    bool classic, acc_given;
    double acc;
    size_t len;
    uint32_t plays[LONGEST];
};

static unsigned checked, differ;

/* A relay with an output of so many numbers; refused or not, all of the memory must be as expected. */
static void check(const struct relay *r, size_t out_len, uint32_t status, const uint32_t *values, const char *what, size_t number)
{
    uint32_t memory[PLACES + 3 * ROOM], right[PLACES + 3 * ROOM];
    for (size_t i = 0; i < sizeof memory / sizeof *memory; i++)
        memory[i] = right[i] = BEFORE;
    if (status == 0)
        memcpy(right + ROOM, values, (1 + 2 * r->len) * sizeof *values);

    uint32_t answer = nuqsillay_relay(r->classic, r->acc_given, r->acc, r->plays, r->len, memory + ROOM, out_len);
    checked++;
    if (answer != status || memcmp(memory, right, sizeof memory) != 0) {
        differ++;
        printf("relay: %s %zu differs\n", what, number);
    }
}

/* Relays worked out on paper: so many charts, the accuracy, the plays; tried and each chart's six. tests/beside/src/relay.rs has the sums
 * beside the same relays. */
static const struct {
    bool classic;
    size_t charts;
    double acc;
    uint32_t plays[3 * CHARTS], values[PLACES];
} told[] = {
    {false, 2, 1, {1, 0, 0, 1, 0, 0}, {1, 1, 0, 0, 0, 0, 0, 1, 0, 0, 0, 0, 0}},
    /* 142 = 2 * 61 + 2 * 10: the first chart has the 320s, the second the 50s. */
    {false, 2, 142.0 / 244, {2, 0, 0, 2, 0, 0}, {1, 2, 0, 0, 0, 0, 0, 0, 0, 0, 0, 2, 0}},
    /* 101 = 61 + 2 * 20, the fifth candidate; a chart of no hits in the middle. */
    {false, 3, 101.0 / 183, {1, 0, 0, 0, 0, 0, 2, 0, 0}, {5, 1, 0, 0, 0, 0, 0, 0, 0, 0, 0, 0, 0, 0, 0, 0, 2, 0, 0}},
    /* All misses, some of them too many: the one candidate has no hits. */
    {false, 2, 1, {3, 0, 3, 1, 1, 1000000}, {1, 0, 0, 0, 0, 0, 3, 0, 0, 0, 0, 0, 2}},
    /* 203 of the 366 points of all six hits; five remain. */
    {false, 2, 203.0 / 366, {3, 0, 1, 2, 1, 0}, {1, 2, 0, 0, 0, 0, 1, 1, 0, 0, 0, 2, 0}},
    /* Hold notes are not counted if classic: 140 = 2 * 60 + 20, the third candidate. */
    {true, 2, 140.0 / 180, {2, 100000, 0, 1, 100000, 0}, {3, 2, 0, 0, 0, 0, 0, 0, 0, 0, 1, 0, 0}},
    /* 30.5 goes to 30, where a 100 and a 200 are as far and the 100 comes first. */
    {false, 2, 0.5, {0, 0, 1, 0, 1, 0}, {5, 0, 0, 0, 0, 0, 0, 0, 0, 0, 1, 0, 0}},
    {false, 2, -0.0, {1, 0, 0, 1, 0, 0}, {14, 0, 0, 0, 0, 1, 0, 0, 0, 0, 0, 1, 0}},
};

static void check_told(void)
{
    for (size_t i = 0; i < sizeof told / sizeof *told; i++) {
        struct relay r = {.classic = told[i].classic, .acc_given = true, .acc = told[i].acc, .len = 3 * told[i].charts};
        memcpy(r.plays, told[i].plays, sizeof told[i].plays);
        size_t places = 1 + 6 * told[i].charts;
        for (size_t out_len = 0; out_len <= places + ROOM; out_len++)
            check(&r, out_len, out_len < places ? NUQSILLAY_OUTPUT_SHORT : NUQSILLAY_OK, told[i].values, "a told relay", i);
    }
}

/* Eight charts of 200,000 hits: all 320s with the first candidate, and all 50s with the last of 88,434. */
static void check_largest(void)
{
    for (uint32_t whole = 0; whole < 2; whole++) {
        struct relay r = {.acc_given = true, .acc = whole, .len = 3 * CHARTS};
        uint32_t values[PLACES] = {whole ? 1 : 88434};
        for (size_t i = 0; i < CHARTS; i++) {
            r.plays[3 * i] = r.plays[3 * i + 1] = 100000;
            values[1 + 6 * i + (whole ? 0 : 4)] = 200000;
        }
        check(&r, PLACES, 0, values, "the largest relay", whole);
    }
}

static uint32_t least(uint32_t x, uint32_t y)
{
    return x < y ? x : y;
}

/* The total hits of the chart whose numbers start at i. */
static uint32_t total_hits(const struct relay *r, size_t i)
{
    return r->plays[i] + (r->classic ? 0 : r->plays[i + 1]);
}

/* The total hits of all charts. */
static uint32_t pooled_total(const struct relay *r)
{
    uint32_t total = 0;
    for (size_t i = 0; i < r->len; i += 3)
        total += total_hits(r, i);
    return total;
}

/* What the direct call makes of all hits as one chart, which must have room for them: its counts best first into the charts' places.
 * Outside classic the chart's hold notes take the hits that objects have no room for. */
static void deal_one_play(const struct relay *r, uint32_t *values)
{
    uint32_t missed = 0, one[8] = {0};
    for (size_t i = 0; i < r->len; i += 3)
        missed += values[1 + 2 * i + 5] = least(r->plays[i + 2], total_hits(r, i));
    uint32_t total = pooled_total(r), objects = r->classic ? total : least(total, 100000);
    nuqsillay_generate(objects, total - objects, NUQSILLAY_NEAREST, 0, r->classic, NUQSILLAY_HAS_MISSES | NUQSILLAY_HAS_ACC, 0, 0, 0, 0, 0,
                       missed, 0, false, 0, r->acc, one, 8);

    values[0] = one[6];
    size_t judgement = 0;
    for (size_t i = 0; i < r->len; i += 3) {
        uint32_t *six = values + 1 + 2 * i;
        uint32_t room = total_hits(r, i) - six[5];
        while (room > 0 && judgement < 5) {
            uint32_t dealt = least(room, one[judgement]);
            six[judgement] = dealt;
            room -= dealt;
            one[judgement] -= dealt;
            judgement += one[judgement] == 0;
        }
    }
}

/* Objects, hold notes and misses of eight charts, small and large. */
static const uint32_t charts[][3 * CHARTS] = {
    {3, 2, 0, 2, 2, 0, 0, 0, 0, 4, 0, 1, 1, 1, 5, 0, 3, 0, 2, 0, 0, 1, 1, 1},
    {40, 7, 3, 0, 0, 9, 25, 60, 0, 31, 31, 31, 90, 1, 2, 5, 5, 1000000, 17, 0, 4, 64, 64, 0},
    {20000, 900, 0, 8000, 100, 77, 30000, 30000, 1, 1, 0, 0, 12000, 5, 12, 7, 7, 7, 0, 0, 0, 15000, 3, 15000},
};

/* Accuracies in even steps, and the next ones up whose products lie at half a point. */
static void check_beside_one_play(void)
{
    for (size_t i = 0; i < 2 * sizeof charts / sizeof *charts; i++)
        for (size_t count = 2; count <= CHARTS; count++)
            for (unsigned step = 0; step < 2 * 97; step++) {
                struct relay r = {.classic = i % 2, .acc_given = true, .acc = step / 2 / 97.0, .len = 3 * count};
                uint32_t values[PLACES] = {0};
                memcpy(r.plays, charts[i / 2], r.len * sizeof *r.plays);
                double full = (r.classic ? 60 : 61) * pooled_total(&r);
                if (step % 2 == 1)
                    r.acc = (floor(r.acc * full) + 0.5) / full;
                deal_one_play(&r, values);
                check(&r, 1 + 6 * count + step % 3, 0, values, "charts", i / 2);
            }
}

/* Plays of every length: 21 but for two to eight charts. */
static void check_lengths(void)
{
    for (size_t len = 0; len <= LONGEST; len++) {
        struct relay r = {.acc_given = true, .acc = 1, .len = len};
        uint32_t values[1 + 2 * LONGEST] = {1};
        for (size_t i = 0; i < len; i += 3) {
            r.plays[i] = 1;
            values[1 + 2 * i] = 1;
        }
        bool right = len % 3 == 0 && len >= 6 && len <= 24;
        check(&r, PLACES, right ? NUQSILLAY_OK : NUQSILLAY_RELAY_CHARTS, values, "length", len);
    }
}

/* Each kind of accuracy, with the number that refuses it. */
static const struct {
    uint32_t status;
    bool given;
    double acc;
} accs[] = {
    {0, true, 1},   {0, true, 0x1p-1074},   {11, true, NAN},  {11, true, -NAN},  {11, true, INFINITY}, {11, true, -0x1p-1074},
    {13, false, 1}, {11, true, 1 + 0x1p-52}, {13, false, NAN}, {13, false, -1.0}, {13, false, 0},
};

/* The relay with each kind of accuracy and of output: the first fault in the order of the checks is told. length, chart and miss are those
 * that the relay has already, 21, 7 and 10, or 0; a difference is told by all three, as 210710. */
static void check_faults(struct relay *r, uint32_t length, uint32_t chart, uint32_t miss)
{
    size_t places = 1 + 6 * (r->len / 3);
    for (size_t i = 0; i < sizeof accs / sizeof *accs; i++) {
        r->acc_given = accs[i].given;
        r->acc = accs[i].acc;
        const size_t lens[] = {0, places - 1, places, places + 1};
        for (size_t k = 0; k < 4; k++) {
            uint32_t faults[] = {length, lens[k] < places ? NUQSILLAY_OUTPUT_SHORT : 0, chart, miss, accs[i].status};
            uint32_t values[PLACES] = {0}, status = 0;
            for (int f = 4; f >= 0; f--)
                if (faults[f] != 0)
                    status = faults[f];
            if (status == 0)
                deal_one_play(r, values);
            check(r, lens[k], status, values, "faults", 10000 * length + 100 * chart + miss);
        }
    }
}

/* Objects or hold notes at their limit or past it, and misses likewise, each in each chart. `extra` numbers follow the charts. */
static void check_places(bool classic, size_t count, size_t extra, uint32_t length)
{
    static const uint32_t objects[] = {100000, 100001, UINT32_MAX}, misses[] = {1000000, 1000001, UINT32_MAX};
    for (size_t place = 0; place < 2 * count; place++)
        for (size_t other = 0; other < count; other++)
            for (size_t k = 0; k < 9; k++) {
                struct relay r = {.classic = classic, .len = 3 * count + extra};
                for (size_t i = 0; i < r.len; i++)
                    r.plays[i] = (uint32_t)i % 3;
                r.plays[3 * (place / 2) + place % 2] = objects[k / 3];
                r.plays[3 * other + 2] = misses[k % 3];
                check_faults(&r, length, k / 3 ? NUQSILLAY_CHART_OVER : 0, k % 3 ? NUQSILLAY_COUNT_OVER : 0);
            }
}

static void check_refusals(void)
{
    for (int classic = 0; classic < 2; classic++) {
        for (size_t count = 2; count <= CHARTS; count++)
            check_places(classic, count, 0, 0);
        check_places(classic, 1, 0, NUQSILLAY_RELAY_CHARTS);
        check_places(classic, CHARTS + 1, 0, NUQSILLAY_RELAY_CHARTS);
        check_places(classic, 2, 1, NUQSILLAY_RELAY_CHARTS);
        check_places(classic, 2, 2, NUQSILLAY_RELAY_CHARTS);
        struct relay none = {.classic = classic};
        check_faults(&none, NUQSILLAY_RELAY_CHARTS, 0, 0);
    }
}

int main(void)
{
    check_told();
    check_largest();
    check_beside_one_play();
    check_lengths();
    check_refusals();

    printf("relay: %u checked, %u differ\n", checked, differ);
    return differ != 0;
}
