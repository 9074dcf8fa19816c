/* sheets: checks what the library's sheet call answers and what it leaves in the output and the totals: document 01's example, a
 * row for each status, points left over, holds passed, own weights, sums, outputs of every length, sheets cut at every byte, and
 * counts past their limits, each with 0 to 8 totals.
 * Prints 'sheets: N checked, D differ'; ends with 1 if any differs. */
#include <math.h>
#include <stdio.h>
#include <string.h>

#include "nuqsillay.h"

/* MOST is a full sheet with own weights. */
enum { COUNT = 4, CHART = 8, WEIGHTS = 20, QUERY = 48, FIELDS = 9, ANSWER = 4 * FIELDS, MOST = 51232, ROOM = 64 };

/* The totals: the number of rows with status 0, and the sums of their six counts. AROUND numbers stand on both sides of them. */
enum { TOTALS = 7, AROUND = 4 };

/* What stands in lent memory before a call. */
enum { BEFORE = 0xA5 };

struct query {
    uint16_t chart;
    uint8_t method, priority, classic, presence, holds_given, zero;
    uint32_t n[5], misses, passed;
    double acc;
    uint32_t holds_passed;
};

/* A sheet on its way, with room for more than the most that is accepted. */
struct sheet {
    uint8_t bytes[MOST + ROOM];
    size_t len;
};

static unsigned checked, differ;

static void check(bool right, const char *what, size_t number)
{
    checked++;
    if (!right) {
        differ++;
        printf("sheets: %s %zu differs\n", what, number);
    }
}

static void put(struct sheet *s, uint64_t n, int bytes)
{
    for (int i = 0; i < bytes; i++)
        s->bytes[s->len++] = (uint8_t)(n >> 8 * i);
}

static void put_charts(struct sheet *s, uint32_t count, const uint32_t (*charts)[2])
{
    put(s, count, 4);
    for (uint32_t i = 0; i < count; i++) {
        put(s, charts[i][0], 4);
        put(s, charts[i][1], 4);
    }
}

/* The section between charts and queries: no record where the weights are the standard ones. */
static void put_weights(struct sheet *s, const uint32_t *own)
{
    put(s, own != NULL, 4);
    for (int i = 0; own != NULL && i < 5; i++)
        put(s, own[i], 4);
}

static void put_query(struct sheet *s, const struct query *q)
{
    uint64_t acc;
    memcpy(&acc, &q->acc, sizeof acc);
    put(s, q->chart, 2);
    put(s, q->method, 1);
    put(s, q->priority, 1);
    put(s, q->classic, 1);
    put(s, q->presence, 1);
    put(s, q->holds_given, 1);
    put(s, q->zero, 1);
    for (int i = 0; i < 5; i++)
        put(s, q->n[i], 4);
    put(s, q->misses, 4);
    put(s, q->passed, 4);
    put(s, acc, 8);
    put(s, q->holds_passed, 4);
}

/* Works the sheet's first bytes with an output of so many and with 0 to 8 totals, of which fewer than seven are 5 before anything
 * else. Refused or not, all of the memory must be as expected. Every other output has zeros before, like answers of status 0. */
static void check_work(const struct sheet *s, size_t sheet_len, size_t out_len, uint32_t status, const uint8_t *answers,
                       size_t answers_len, const uint64_t *totals, const char *what, size_t number)
{
    static uint8_t out[1024 * ANSWER + ROOM], right[sizeof out];
    uint64_t lent[AROUND + TOTALS + 1 + AROUND], right_lent[sizeof lent / sizeof *lent];
    for (size_t totals_len = 0; totals_len <= TOTALS + 1; totals_len++) {
        const uint32_t expected = totals_len < TOTALS ? 5 : status;
        const int before = totals_len % 2 ? BEFORE : 0;
        memset(out, before, sizeof out);
        memset(right, before, sizeof right);
        memset(lent, BEFORE, sizeof lent);
        memset(right_lent, BEFORE, sizeof right_lent);
        if (expected == 0) {
            memcpy(right, answers, answers_len);
            memcpy(right_lent + AROUND, totals, TOTALS * sizeof *totals);
        }
        uint32_t answer = nuqsillay_work_sheet(s->bytes, sheet_len, out, out_len, lent + AROUND, totals_len);
        bool same = memcmp(out, right, sizeof out) == 0 && memcmp(lent, right_lent, sizeof lent) == 0;
        check(answer == expected && same, what, number);
    }
}

static void check_refused(const struct sheet *s, size_t sheet_len, size_t out_len, uint32_t status, const char *what)
{
    check_work(s, sheet_len, out_len, status, NULL, 0, NULL, what, sheet_len);
}

/* A whole sheet: its answers with outputs of every length, and every cut of it. Its totals are told, and must be the rows' sums. */
static void check_sheet(struct sheet *s, const uint32_t (*rows)[FIELDS], size_t count, const uint64_t *totals, const char *what)
{
    static struct sheet answers;
    uint64_t sums[TOTALS] = {0};
    answers.len = 0;
    for (size_t i = 0; i < count; i++) {
        for (int field = 0; field < FIELDS; field++)
            put(&answers, rows[i][field], 4);
        sums[0] += rows[i][0] == 0;
        for (int field = 1; field < TOTALS && rows[i][0] == 0; field++)
            sums[field] += rows[i][field];
    }
    check(memcmp(sums, totals, sizeof sums) == 0, what, count);

    for (size_t len = 0; len < answers.len; len++)
        check_refused(s, s->len, len, 5, what);
    for (size_t len = answers.len; len <= answers.len + ROOM; len++)
        check_work(s, s->len, len, 0, answers.bytes, answers.len, totals, what, len);

    for (size_t len = 0; len < s->len; len++)
        check_refused(s, len, answers.len, 1, what);
    /* More bytes are 4 even where the output is too short. */
    check_refused(s, s->len + 1, answers.len, 4, what);
    check_refused(s, s->len + QUERY, 0, 4, what);
}

static void check_example(void)
{
    static struct sheet s;
    const uint32_t charts[1][2] = {{20, 0}};
    const struct query e = {.method = NUQSILLAY_NEAREST, .presence = NUQSILLAY_HAS_N320 | NUQSILLAY_HAS_N300 | NUQSILLAY_HAS_ACC, .acc = 1};
    const struct query bare = {.method = NUQSILLAY_NEAREST};
    put_charts(&s, 1, charts);
    put_weights(&s, NULL);
    put(&s, 2, 4);
    put_query(&s, &e);
    put_query(&s, &bare);
    check_sheet(&s, (const uint32_t[2][FIELDS]){{0, 0, 0, 20, 0, 0, 0, 3, 420}, {13}}, 2,
                (const uint64_t[TOTALS]){1, 0, 0, 20, 0, 0, 0}, "example");
}

/* All but n50 given, so that Nearest has one split. */
enum { ONE_SPLIT = NUQSILLAY_HAS_N320 | NUQSILLAY_HAS_N300 | NUQSILLAY_HAS_N200 | NUQSILLAY_HAS_N100 | NUQSILLAY_HAS_ACC };

/* One row, whose points are one above the target. A caller copies the bytes of left to an int32_t. */
static void check_left(void)
{
    static struct sheet s;
    const uint32_t charts[1][2] = {{1, 0}};
    const struct query q = {.method = NUQSILLAY_NEAREST, .presence = ONE_SPLIT, .acc = 9.0 / 61};
    put_charts(&s, 1, charts);
    put_weights(&s, NULL);
    put(&s, 1, 4);
    put_query(&s, &q);
    check_sheet(&s, (const uint32_t[1][FIELDS]){{0, 0, 0, 0, 0, 1, 0, 1, UINT32_MAX}}, 1,
                (const uint64_t[TOTALS]){1, 0, 0, 0, 0, 1, 0}, "left");

    uint8_t out[ANSWER] = {0};
    uint64_t totals[TOTALS];
    int32_t left;
    uint32_t status = nuqsillay_work_sheet(s.bytes, s.len, out, sizeof out, totals, TOTALS);
    memcpy(&left, out + ANSWER - sizeof left, sizeof left);
    check(status == 0 && left == -1, "left as an int32_t", 0);
}

/* A row that leaves points, then one for each status. Each is stopped by the checks after its own as well, as far as one row can
 * be. */
static void check_statuses(void)
{
    static struct sheet s;
    const uint32_t charts[3][2] = {{5, 0}, {100001, 0}, {0, 100001}};
    const uint8_t first_three = NUQSILLAY_HAS_N320 | NUQSILLAY_HAS_N300 | NUQSILLAY_HAS_N200;
    const struct query rows[] = {
        {.method = NUQSILLAY_NEAREST, .presence = ONE_SPLIT, .acc = 0},
        {.chart = 3, .method = 4, .zero = 1, .presence = NUQSILLAY_HAS_N320, .n = {1000001}},
        {.chart = 65535, .method = 4, .zero = 1, .presence = NUQSILLAY_HAS_N320, .n = {1000001}},
        {.chart = 1, .method = 4, .zero = 1, .presence = NUQSILLAY_HAS_N320, .n = {1000001}},
        {.chart = 2, .classic = 1},
        {.method = 4, .zero = 1, .presence = NUQSILLAY_HAS_N320, .n = {1000001}},
        {.priority = 2, .zero = 1},
        {.classic = 2, .zero = 1},
        {.zero = 1, .presence = NUQSILLAY_HAS_N320, .n = {1000001}},
        {.holds_given = 2},
        {.presence = NUQSILLAY_HAS_N320, .n = {0, 1000001}},
        {.misses = 1},
        {.acc = -0.0},
        {.presence = NUQSILLAY_HAS_N320 | NUQSILLAY_HAS_ACC, .n = {1000001}, .acc = NAN},
        {.presence = NUQSILLAY_HAS_MISSES | NUQSILLAY_HAS_ACC, .misses = 1000001, .acc = 2},
        {.method = NUQSILLAY_IGNORE_ACCURACY, .presence = NUQSILLAY_HAS_ACC, .acc = NAN},
        {.method = NUQSILLAY_CLOSEST, .presence = first_three | NUQSILLAY_HAS_ACC, .n = {3, 3}, .acc = 1 + 0x1p-52},
        {.method = NUQSILLAY_CLOSEST, .presence = first_three | NUQSILLAY_HAS_ACC, .n = {3, 3}, .acc = 1},
        {.method = NUQSILLAY_NEAREST, .presence = first_three, .n = {3, 3}},
        {.method = NUQSILLAY_NEAREST, .presence = first_three | NUQSILLAY_HAS_ACC, .n = {3, 3}, .acc = 1},
        {.method = NUQSILLAY_CLOSEST, .presence = first_three | NUQSILLAY_HAS_ACC, .n = {3, 2}, .acc = 1},
        {.method = NUQSILLAY_FAST, .presence = NUQSILLAY_HAS_MISSES | NUQSILLAY_HAS_ACC, .misses = 9, .acc = 1},
    };
    const size_t count = sizeof rows / sizeof *rows;
    put_charts(&s, 3, charts);
    put_weights(&s, NULL);
    put(&s, count, 4);
    for (size_t i = 0; i < count; i++)
        put_query(&s, &rows[i]);

    check_sheet(&s, (const uint32_t[][FIELDS]){
        {0, 0, 0, 0, 0, 5, 0, 1, -50u},
        {6}, {6}, {7}, {7}, {8}, {8}, {8}, {9}, {9}, {9}, {9}, {9}, {10}, {10}, {11}, {11}, {12}, {13}, {14},
        {0, 3, 2, 0, 0, 0, 0, 0, 0}, {0, 0, 0, 0, 0, 0, 5, 0, 0},
    }, count, (const uint64_t[TOTALS]){3, 3, 2, 0, 0, 5, 5}, "statuses");
}

/* A row and its answer. */
struct told {
    struct query q;
    uint32_t answer[FIELDS];
};

/* A sheet of rows told by hand, and its totals. */
static void check_told(uint32_t charts_count, const uint32_t (*charts)[2], const uint32_t *own, const struct told *rows,
                       size_t count, const uint64_t *totals, const char *what)
{
    static struct sheet s;
    static uint32_t answers[1024][FIELDS];
    s.len = 0;
    put_charts(&s, charts_count, charts);
    put_weights(&s, own);
    put(&s, count, 4);
    for (size_t i = 0; i < count; i++) {
        put_query(&s, &rows[i].q);
        memcpy(answers[i], rows[i].answer, sizeof answers[i]);
    }
    check_sheet(&s, (const uint32_t (*)[FIELDS])answers, count, totals, what);
}

/* Rows over charts of 20 objects, with 7 holds and with 100,001: the holds passed with byte 6 at 1, and all that check 9 refuses of
 * bytes 6, 7 and the last field, of classic rows too. Where nothing else is given IgnoreAccuracy makes a 320 of every hit. */
static void check_holds(void)
{
    const uint32_t charts[2][2] = {{20, 7}, {20, 100001}};
    const uint8_t over = NUQSILLAY_HAS_N320;
    const struct told rows[] = {
        {{0}, {0, 27}},
        {{.holds_given = 1}, {0, 20}},
        {{.holds_given = 1, .holds_passed = 1}, {0, 21}},
        {{.holds_given = 1, .holds_passed = 6}, {0, 26}},
        {{.holds_given = 1, .holds_passed = 7}, {0, 27}},
        {{.holds_given = 1, .holds_passed = 8}, {0, 27}},
        {{.holds_given = 1, .holds_passed = UINT32_MAX}, {0, 27}},
        {{.classic = 1, .holds_given = 1, .holds_passed = 3}, {0, 20}},
        {{.presence = NUQSILLAY_HAS_PASSED, .passed = 5, .holds_given = 1, .holds_passed = 3}, {0, 8}},
        {{.presence = NUQSILLAY_HAS_MISSES, .misses = 24, .holds_given = 1, .holds_passed = 3}, {0, 0, 0, 0, 0, 0, 23}},
        {{.method = NUQSILLAY_FAST, .presence = NUQSILLAY_HAS_ACC, .acc = 1, .holds_given = 1, .holds_passed = 3}, {0, 23}},
        {{.method = NUQSILLAY_CLOSEST, .presence = NUQSILLAY_HAS_ACC, .acc = 1, .holds_given = 1, .holds_passed = 3}, {0, 23}},
        /* 23 hits of 61 points, of which n50 earns 10 each. */
        {{.method = NUQSILLAY_NEAREST, .presence = ONE_SPLIT, .acc = 1, .holds_given = 1, .holds_passed = 3},
         {0, 0, 0, 0, 0, 23, 0, 1, 23 * 51}},
        {{.method = NUQSILLAY_NEAREST, .presence = ONE_SPLIT, .n = {23}, .acc = 1, .holds_given = 1, .holds_passed = 3},
         {0, 23, 0, 0, 0, 0, 0, 1, 0}},
        {{.method = NUQSILLAY_NEAREST, .presence = ONE_SPLIT, .n = {24}, .acc = 1, .holds_given = 1, .holds_passed = 3}, {14}},
        {{.chart = 1, .holds_given = 1, .holds_passed = 5}, {7}},
        {{.chart = 1, .classic = 1, .holds_given = 1}, {7}},
        {{.chart = 1, .holds_given = 2, .holds_passed = 5}, {7}},
        {{.method = 4, .holds_given = 2}, {8}},
        {{.classic = 2, .holds_passed = 1}, {8}},
        {{.holds_given = 2}, {9}},
        {{.holds_given = 2, .holds_passed = 1}, {9}},
        {{.holds_given = 255}, {9}},
        {{.holds_given = 255, .holds_passed = 1}, {9}},
        {{.zero = 1}, {9}},
        {{.zero = 0x80}, {9}},
        {{.holds_given = 1, .zero = 1}, {9}},
        {{.holds_given = 1, .zero = 1, .holds_passed = 1}, {9}},
        {{.holds_passed = 1}, {9}},
        {{.holds_passed = 1 << 8}, {9}},
        {{.holds_passed = 1 << 16}, {9}},
        {{.holds_passed = 1 << 24}, {9}},
        {{.holds_passed = UINT32_MAX}, {9}},
        {{.classic = 1, .holds_passed = 1}, {9}},
        {{.classic = 1, .holds_given = 2}, {9}},
        {{.classic = 1, .holds_given = 1, .zero = 1}, {9}},
        {{.presence = over, .n = {1000001}, .holds_passed = 1}, {9}},
        {{.presence = over, .n = {1000001}, .holds_given = 2}, {9}},
        {{.presence = over, .n = {1000001}, .holds_given = 1, .zero = 1}, {9}},
        {{.presence = over, .n = {1000001}, .holds_given = 1, .holds_passed = 1}, {10}},
    };
    check_told(2, charts, NULL, rows, sizeof rows / sizeof *rows, (const uint64_t[TOTALS]){14, 272, 0, 0, 0, 23, 23},
               "holds passed");
}

/* Own weights whose first two are equal: a pair that is missing folds, classic or not. Then rows of Fast and Closest, which are 19
 * after every check up to 9 and before any other. */
static void check_own(void)
{
    const uint32_t charts[3][2] = {{4, 2}, {3, 0}, {100001, 0}}, own[5] = {80, 80, 40, 20, 10};
    const uint8_t middle = NUQSILLAY_HAS_N200 | NUQSILLAY_HAS_N100 | NUQSILLAY_HAS_ACC, last = middle | NUQSILLAY_HAS_N50;
    const uint8_t all = ONE_SPLIT | NUQSILLAY_HAS_N50, over = NUQSILLAY_HAS_N320 | NUQSILLAY_HAS_ACC;
    const struct told rows[] = {
        /* Half of 80 points for each of six hits, or of four without the holds, is wanted, and n320 takes them all. */
        {{.method = NUQSILLAY_NEAREST, .presence = last, .acc = 0.5}, {0, 6, 0, 0, 0, 0, 0, 1, -240u}},
        {{.method = NUQSILLAY_NEAREST, .classic = 1, .presence = last, .acc = 0.5}, {0, 4, 0, 0, 0, 0, 0, 1, -160u}},
        /* 150 points of three hits, n320 or n50: 100 and 170 are tried. */
        {{.chart = 1, .method = NUQSILLAY_NEAREST, .presence = middle, .acc = 0.625}, {0, 2, 0, 0, 0, 1, 0, 2, -20u}},
        /* No pair is missing. */
        {{.chart = 1, .method = NUQSILLAY_NEAREST, .presence = last | NUQSILLAY_HAS_N300, .n = {0, 1}, .acc = 1},
         {0, 2, 1, 0, 0, 0, 0, 1, 0}},
        {{.chart = 1, .method = NUQSILLAY_NEAREST, .presence = last | NUQSILLAY_HAS_N320, .n = {1}, .acc = 1},
         {0, 1, 2, 0, 0, 0, 0, 1, 0}},
        {{.chart = 1, .method = NUQSILLAY_NEAREST, .presence = ONE_SPLIT, .acc = 0}, {0, 0, 0, 0, 0, 3, 0, 1, -30u}},
        {{.chart = 1, .method = NUQSILLAY_NEAREST, .presence = all, .n = {1, 1, 1}, .acc = 1}, {0, 1, 1, 1, 0, 0, 0, 0, 40}},
        {{.method = NUQSILLAY_IGNORE_ACCURACY}, {0, 6}},
        {{.method = NUQSILLAY_IGNORE_ACCURACY, .classic = 1, .presence = NUQSILLAY_HAS_ACC, .acc = 0.5}, {0, 4}},
        {{.method = NUQSILLAY_FAST, .presence = NUQSILLAY_HAS_ACC, .acc = 0.5}, {NUQSILLAY_OWN_WEIGHTS}},
        {{.method = NUQSILLAY_CLOSEST, .presence = NUQSILLAY_HAS_ACC, .acc = 0.5}, {NUQSILLAY_OWN_WEIGHTS}},
        {{.method = NUQSILLAY_FAST}, {NUQSILLAY_OWN_WEIGHTS}},
        {{.method = NUQSILLAY_CLOSEST, .classic = 1}, {NUQSILLAY_OWN_WEIGHTS}},
        {{.method = NUQSILLAY_FAST, .presence = over, .n = {1000001}, .acc = NAN}, {NUQSILLAY_OWN_WEIGHTS}},
        {{.method = NUQSILLAY_CLOSEST, .presence = over, .acc = 2}, {NUQSILLAY_OWN_WEIGHTS}},
        {{.chart = 3, .method = NUQSILLAY_FAST}, {6}},
        {{.chart = 2, .method = NUQSILLAY_CLOSEST}, {7}},
        {{.method = NUQSILLAY_FAST, .priority = 2}, {8}},
        {{.method = NUQSILLAY_CLOSEST, .classic = 2}, {8}},
        {{.method = NUQSILLAY_FAST, .zero = 1}, {9}},
        {{.method = NUQSILLAY_CLOSEST, .misses = 1}, {9}},
        {{.method = NUQSILLAY_IGNORE_ACCURACY, .presence = over, .n = {1000001}, .acc = NAN}, {10}},
        {{.method = NUQSILLAY_NEAREST, .presence = over, .n = {1000001}, .acc = NAN}, {10}},
        {{.method = NUQSILLAY_NEAREST, .presence = over, .n = {7}, .acc = NAN}, {11}},
        {{.method = NUQSILLAY_NEAREST, .presence = NUQSILLAY_HAS_N320, .n = {7}}, {13}},
        {{.method = NUQSILLAY_NEAREST, .presence = over, .n = {7}, .acc = 1}, {14}},
        {{.method = NUQSILLAY_NEAREST, .presence = over, .n = {6}, .acc = 1}, {0, 6, 0, 0, 0, 0, 0, 1, 0}},
    };
    check_told(3, charts, own, rows, sizeof rows / sizeof *rows, (const uint64_t[TOTALS]){10, 32, 4, 1, 0, 4, 0}, "own weights");

    /* Unequal ones do not fold in a classic row: of its five hits two are n320. Eight have 480 points at least. */
    const struct told unequal[] = {
        {{.method = NUQSILLAY_NEAREST, .classic = 1, .presence = last, .acc = 302.0 / 305}, {0, 2, 3, 0, 0, 0, 0, 1, 0}},
        {{.method = NUQSILLAY_NEAREST, .presence = last, .acc = 302.0 / 488}, {0, 0, 8, 0, 0, 0, 0, 2, -178u}},
    };
    check_told(1, (const uint32_t[1][2]){{5, 3}}, (const uint32_t[5]){61, 60, 40, 20, 10}, unequal, 2,
               (const uint64_t[TOTALS]){2, 2, 11}, "unequal own weights");

    /* n200 goes from 0 to 3: points 13 and 21, 15 and 23, 17 and 25, 19 and 27, of which 21 is the first that is 1 away from 20. */
    const uint8_t between = NUQSILLAY_HAS_N300 | NUQSILLAY_HAS_N100 | NUQSILLAY_HAS_ACC;
    const struct told first = {{.method = NUQSILLAY_NEAREST, .presence = between, .acc = 20.0 / 45}, {0, 2, 0, 0, 0, 3, 0, 8, -1u}};
    check_told(1, (const uint32_t[1][2]){{5, 0}}, (const uint32_t[5]){9, 6, 3, 2, 1}, &first, 1,
               (const uint64_t[TOTALS]){1, 2, 0, 0, 0, 3}, "first smallest distance");

    /* The longest walk: two candidates in each of 99 * 99 * 99 settings. One point is wanted, and 200,000 hits have 200,000. */
    const struct told longest = {{.method = NUQSILLAY_NEAREST, .presence = NUQSILLAY_HAS_ACC, .acc = 1 / 20e6},
                                 {0, 0, 0, 0, 0, 200000, 0, 1940598, -199999u}};
    check_told(1, (const uint32_t[1][2]){{100000, 100000}}, (const uint32_t[5]){100, 98, 3, 2, 1}, &longest, 1,
               (const uint64_t[TOTALS]){1, 0, 0, 0, 0, 200000}, "longest walk");
}

/* A full sheet of one row over and over. */
static void check_same(const uint32_t *chart, const struct told *row, const uint64_t *totals, const char *what)
{
    static struct sheet s, answers;
    s.len = answers.len = 0;
    put_charts(&s, 1, (const uint32_t[1][2]){{chart[0], chart[1]}});
    put_weights(&s, NULL);
    put(&s, 1024, 4);
    for (int i = 0; i < 1024; i++) {
        put_query(&s, &row->q);
        for (int field = 0; field < FIELDS; field++)
            put(&answers, row->answer[field], 4);
    }
    check_work(&s, s.len, answers.len, 0, answers.bytes, answers.len, totals, what, s.len);
    check_refused(&s, s.len, answers.len - 1, 5, what);
    check_refused(&s, s.len - 1, answers.len, 1, what);
}

/* The sums: of rows that share no digit of them, with stopped rows before, between and after; of rows without hits; of nothing but
 * stopped rows; then of full sheets. IgnoreAccuracy keeps counts that are all the hits of their chart. */
static void check_totals(void)
{
    const uint32_t charts[4][2] = {{21, 0}, {210, 0}, {2100, 0}, {0, 0}};
    const uint8_t three = NUQSILLAY_HAS_N320 | NUQSILLAY_HAS_N300 | NUQSILLAY_HAS_N200;
    const uint8_t six = three | NUQSILLAY_HAS_N100 | NUQSILLAY_HAS_N50 | NUQSILLAY_HAS_MISSES;
    const struct told ones = {{.chart = 0, .presence = six, .n = {1, 2, 3, 4, 5}, .misses = 6}, {0, 1, 2, 3, 4, 5, 6}};
    const struct told tens = {{.chart = 1, .presence = six, .n = {10, 20, 30, 40, 50}, .misses = 60}, {0, 10, 20, 30, 40, 50, 60}};
    const struct told hundreds = {{.chart = 2, .presence = six, .n = {100, 200, 300, 400, 500}, .misses = 600},
                                  {0, 100, 200, 300, 400, 500, 600}};
    const struct told no_hits = {{.chart = 3}, {0}};
    const struct told no_chart = {{.chart = 4, .presence = six, .n = {7, 7, 7, 7, 7}, .misses = 7}, {6}};
    const struct told no_acc = {{.method = NUQSILLAY_NEAREST, .presence = six, .n = {1, 2, 3, 4, 5}, .misses = 6}, {13}};
    const uint64_t none[TOTALS] = {0};

    check_told(4, charts, NULL, (const struct told[]){ones, no_chart, tens, no_acc, hundreds}, 5,
               (const uint64_t[TOTALS]){3, 111, 222, 333, 444, 555, 666}, "stopped rows between");
    check_told(4, charts, NULL, (const struct told[]){no_acc, ones, tens, no_chart}, 4,
               (const uint64_t[TOTALS]){2, 11, 22, 33, 44, 55, 66}, "the first and the last stopped");
    check_told(4, charts, NULL, (const struct told[]){tens, tens, ones, tens}, 4,
               (const uint64_t[TOTALS]){4, 31, 62, 93, 124, 155, 186}, "equal rows");
    check_told(4, charts, NULL, (const struct told[]){no_hits, no_acc, no_hits, no_hits}, 4, (const uint64_t[TOTALS]){3},
               "no hits");
    check_told(4, charts, NULL, (const struct told[]){no_chart, no_acc}, 2, none, "all stopped");
    check_told(4, charts, NULL, &ones, 0, none, "no queries");

    check_same(charts[0], &ones, (const uint64_t[TOTALS]){1024, 1024, 2048, 3072, 4096, 5120, 6144}, "1,024 rows");
    check_same(charts[0], &no_acc, none, "1,024 stopped rows");
    check_same(charts[3], &(const struct told){{.chart = 0}, {0}}, (const uint64_t[TOTALS]){1024}, "1,024 rows without hits");

    /* The largest sums: where three are missing and the hits are too few, Closest keeps the given counts, and n50 takes remain. */
    const uint8_t n200 = NUQSILLAY_HAS_N200 | NUQSILLAY_HAS_ACC, both = n200 | NUQSILLAY_HAS_N320;
    const uint32_t most = 1000000, largest[2] = {100000, 100000};
    const struct told d = {{.method = NUQSILLAY_CLOSEST, .presence = n200, .n = {0, 0, most}, .acc = 1}, {0, 0, 0, most, 0, 5}};
    const struct told two = {{.method = NUQSILLAY_CLOSEST, .presence = both, .n = {most, 0, most}, .acc = 1},
                             {0, most, 0, most, 0, 200000}};
    const struct told missed = {{.presence = NUQSILLAY_HAS_MISSES, .misses = most}, {0, 0, 0, 0, 0, 0, 200000}};
    check_same((const uint32_t[2]){5, 0}, &d, (const uint64_t[TOTALS]){1024, 0, 0, 1024000000, 0, 5120, 0}, "n200 of 1,000,000");
    check_same(largest, &two, (const uint64_t[TOTALS]){1024, 1024000000, 0, 1024000000, 0, 204800000, 0}, "n320 and n200");
    check_same(largest, &missed, (const uint64_t[TOTALS]){1024, 0, 0, 0, 0, 0, 204800000}, "misses");
}

/* Sheets that 18 refuses, cut at every byte: a weights' count over 1 is told as soon as it is there, bad weights when all five are,
 * whatever the query count says. */
static void check_weights(void)
{
    const uint32_t charts[1][2] = {{4, 2}};
    const uint32_t bad[][5] = {
        {101, 60, 40, 20, 10}, {101, 101, 40, 20, 10}, {61, 60, 40, 20, 0},   {60, 61, 40, 20, 10}, {61, 60, 60, 20, 10},
        {61, 60, 40, 40, 10},  {61, 60, 40, 20, 20},   {60, 60, 60, 20, 10},  {61, 60, 40, 20, 41}, {256 + 61, 60, 40, 20, 10},
        {1, 2, 3, 4, 5},       {0, 0, 0, 0, 0},        {61, 60, 40, 20, -1u}, {61, 316, 40, 20, 10}};
    const uint32_t counts[] = {2, 3, 255, 256, 65536, 1u << 31, UINT32_MAX};
    const struct query q = {.method = NUQSILLAY_IGNORE_ACCURACY};
    const size_t weights = COUNT + CHART + COUNT, queries = weights + WEIGHTS;

    for (size_t i = 0; i < sizeof bad / sizeof *bad; i++)
        for (uint32_t count = 1; count <= 1025; count += 1024) {
            static struct sheet s;
            s.len = 0;
            put_charts(&s, 1, charts);
            put_weights(&s, bad[i]);
            put(&s, count, 4);
            put_query(&s, &q);
            for (size_t len = 0; len <= s.len; len++)
                check_refused(&s, len, ANSWER, len < queries ? 1 : NUQSILLAY_BAD_WEIGHTS, "bad weights");
        }

    for (size_t i = 0; i < sizeof counts / sizeof *counts; i++) {
        static struct sheet s;
        s.len = 0;
        put_charts(&s, 1, charts);
        put(&s, counts[i], 4);
        for (uint32_t weight = 5; weight > 0; weight--)
            put(&s, weight, 4);
        put(&s, 1, 4);
        put_query(&s, &q);
        for (size_t len = 0; len <= s.len; len++)
            check_refused(&s, len, ANSWER, len < weights ? 1 : NUQSILLAY_BAD_WEIGHTS, "weights' count");
    }
}

/* Each count at its limit and past it, with its records there or missing. */
static void check_limits(void)
{
    static struct sheet s;
    put(&s, 0, 4);
    put_weights(&s, NULL);
    put(&s, 0, 4);
    check_work(&s, s.len, 0, 0, s.bytes, 0, (const uint64_t[TOTALS]){0}, "empty sheet", 0);
    check_refused(&s, s.len + 1, 0, 4, "empty sheet");

    /* 1,024 queries of zero bytes: IgnoreAccuracy on the first chart with nothing given. */
    static struct sheet answers;
    for (answers.len = 0; answers.len < 1024 * ANSWER; answers.len += ANSWER)
        answers.bytes[answers.len + 4] = 7;

    const uint32_t own[5] = {5, 4, 3, 2, 1};
    for (int with = 0; with < 2; with++) {
        const size_t full = with ? MOST : MOST - WEIGHTS;
        memset(&s, 0, sizeof s);
        put(&s, 256, 4);
        put(&s, 7, 4);
        s.len = COUNT + 256 * CHART;
        put_weights(&s, with ? own : NULL);
        put(&s, 1024, 4);
        check_work(&s, full, answers.len, 0, answers.bytes, answers.len, (const uint64_t[TOTALS]){1024, 7168}, "full sheet", full);
        check_refused(&s, full, answers.len - 1, 5, "full sheet");
        check_refused(&s, full - 1, answers.len, 1, "full sheet");
        check_refused(&s, full + 1, answers.len, 4, "full sheet");

        s.len -= COUNT;
        put(&s, 1025, 4);
        for (size_t len = s.len; len <= MOST + QUERY; len += QUERY)
            check_refused(&s, len, 0, 3, "1,025 queries");
    }

    s.len = 0;
    put(&s, 257, 4);
    for (size_t len = COUNT; len <= MOST; len += CHART)
        check_refused(&s, len, 0, 2, "257 charts");
}

int main(void)
{
    check_example();
    check_left();
    check_statuses();
    check_holds();
    check_own();
    check_totals();
    check_weights();
    check_limits();

    printf("sheets: %u checked, %u differ\n", checked, differ);
    return differ != 0;
}
