/* calls LIST: checks what the library's calls answer and what they leave in the output: on the fixed list of the Rust's answers
 * (crates/replay/stdin; tests/beside/src/list.rs tells its format), on document 01's plays, and past each limit.
 * Prints 'calls: N checked, D differ'; ends with 1 if any differs and with 2 if it cannot read the list. */
#include <inttypes.h>
#include <math.h>
#include <stdio.h>
#include <string.h>

#include "nuqsillay.h"

enum { RECORD = 92, VALUES = 8, PLACES = 10 };

/* What stands in an output before a call. */
#define BEFORE 0x5E171CEDu
/* A value that is not told. No value is this one: the bits of a left of -1 are UINT32_MAX. */
#define ANY 0x80000000u

struct query {
    uint32_t n_objects, n_hold_notes;
    uint8_t method, priority;
    bool classic;
    uint8_t presence;
    uint32_t n[5], misses, passed;
    bool holds_given;
    uint32_t holds_passed;
    double acc;
};

static unsigned checked, differ;

static void check(bool right, const char *what, long number)
{
    checked++;
    if (!right) {
        differ++;
        printf("calls: %s %ld differs\n", what, number);
    }
}

static uint32_t generate(const struct query *q, uint32_t *out, size_t len)
{
    return nuqsillay_generate(q->n_objects, q->n_hold_notes, q->method, q->priority, q->classic, q->presence, q->n[0], q->n[1],
                              q->n[2], q->n[3], q->n[4], q->misses, q->passed, q->holds_given, q->holds_passed, q->acc, out, len);
}

static uint32_t target(const struct query *q, uint32_t *out, size_t len)
{
    return nuqsillay_target(q->n_objects, q->n_hold_notes, q->classic, q->presence, q->misses, q->passed, q->holds_given,
                            q->holds_passed, q->acc, out, len);
}

/* A call that writes `places` numbers, with an output of each length: 5 where it is too short, else the status and values. */
static void check_outputs(uint32_t (*call)(const struct query *, uint32_t *, size_t), const struct query *q, size_t places,
                          uint32_t status, const uint32_t *values, const char *what, long number)
{
    for (size_t len = 0; len <= PLACES; len++) {
        uint32_t out[PLACES + 1], right[PLACES + 1];
        for (size_t i = 0; i <= PLACES; i++)
            out[i] = right[i] = BEFORE;

        uint32_t expected = len < places ? NUQSILLAY_OUTPUT_SHORT : status;
        uint32_t answer = call(q, out, len);
        for (size_t i = 0; expected == 0 && i < places; i++)
            right[i] = values[i] == ANY ? out[i] : values[i];
        check(answer == expected && memcmp(out, right, sizeof out) == 0, what, number);
    }
}

static void check_accuracy(const uint32_t *n, bool classic, uint32_t status, uint64_t bits, const char *what, long number)
{
    double value = 0;
    uint64_t out = BEFORE;
    memcpy(&value, &out, sizeof value);
    uint32_t answer = nuqsillay_accuracy(n[0], n[1], n[2], n[3], n[4], n[5], classic, &value);
    memcpy(&out, &value, sizeof out);
    check(answer == status && out == (status == 0 ? bits : BEFORE), what, number);
}

static uint32_t u32_at(const uint8_t *s)
{
    return s[0] | (uint32_t)s[1] << 8 | (uint32_t)s[2] << 16 | (uint32_t)s[3] << 24;
}

static uint64_t u64_at(const uint8_t *s)
{
    return u32_at(s) | (uint64_t)u32_at(s + 4) << 32;
}

static void check_record(const uint8_t *s, long number)
{
    uint8_t kind = s[0];
    uint64_t acc = u64_at(s + 40);
    uint32_t six[6], status = u32_at(s + 56), values[VALUES];
    struct query q = {
        .n_objects = u32_at(s + 4), .n_hold_notes = u32_at(s + 8), .method = kind - 2, .priority = s[1],
        .classic = s[2], .presence = s[3], .misses = u32_at(s + 32), .passed = u32_at(s + 36),
        .holds_given = u32_at(s + 48), .holds_passed = u32_at(s + 52),
    };
    memcpy(&q.acc, &acc, sizeof q.acc);
    for (int i = 0; i < 6; i++)
        six[i] = u32_at(s + 12 + 4 * i);
    memcpy(q.n, six, sizeof q.n);
    for (int i = 0; i < VALUES; i++)
        values[i] = u32_at(s + 60 + 4 * i);

    if (kind == 0) {
        check_accuracy(six, q.classic, status, u64_at(s + 60), "record", number);
    } else if (kind == 1) {
        /* The list leaves out the remaining hits. */
        uint32_t four[4] = {values[0], values[1], values[0] - values[1], values[2]};
        check_outputs(target, &q, 4, status, four, "record", number);
    } else {
        check_outputs(generate, &q, VALUES, status, values, "record", number);
    }
}

static bool check_list(const char *path)
{
    static uint8_t list[1 << 20];
    FILE *file = fopen(path, "rb");
    if (file == NULL)
        return false;
    size_t len = fread(list, 1, sizeof list, file);
    fclose(file);
    if (len == 0 || len == sizeof list || len % RECORD != 0)
        return false;

    for (size_t i = 0; i < len / RECORD; i++)
        check_record(list + RECORD * i, (long)i);
    return true;
}

/* A play of document 01: a chart without holds, the counts that presence names, and the answer. */
struct play {
    char label;
    uint8_t method, priority;
    bool classic;
    uint32_t n_objects;
    uint8_t presence;
    uint32_t n[5], misses;
    double acc;
    uint32_t status, values[VALUES];
};

#define LAST_THREE (NUQSILLAY_HAS_N200 | NUQSILLAY_HAS_N100 | NUQSILLAY_HAS_N50)
#define FIRST_THREE (NUQSILLAY_HAS_N320 | NUQSILLAY_HAS_N300 | NUQSILLAY_HAS_N200)

static const struct play plays[] = {
    {'A', NUQSILLAY_CLOSEST, 0, false, 20, NUQSILLAY_HAS_ACC | LAST_THREE, {0}, 0, 1208.0 / 1220, 0, {8, 12, 0, 0, 0, 0, 0, 0}},
    {'A', NUQSILLAY_NEAREST, 0, false, 20, NUQSILLAY_HAS_ACC | LAST_THREE, {0}, 0, 1208.0 / 1220, 0, {8, 12, 0, 0, 0, 0, 1, 0}},
    {'B', NUQSILLAY_CLOSEST, 0, true, 5, NUQSILLAY_HAS_ACC | LAST_THREE, {0}, 0, 1, 0, {2, 3, 0, 0, 0, 0, 0, 0}},
    {'B', NUQSILLAY_NEAREST, 0, true, 5, NUQSILLAY_HAS_ACC | LAST_THREE, {0}, 0, 1, 0, {5, 0, 0, 0, 0, 0, 1, 0}},
    {'C', NUQSILLAY_CLOSEST, 0, false, 20, NUQSILLAY_HAS_ACC, {0}, 0, 705.0 / 1220, 0, {9, 0, 0, 5, 6, 0, 0, 0}},
    {'C', NUQSILLAY_NEAREST, 0, false, 20, NUQSILLAY_HAS_ACC, {0}, 0, 705.0 / 1220, 0, {5, 0, 5, 10, 0, 0, ANY, 0}},
    {'D', NUQSILLAY_CLOSEST, 0, false, 5, NUQSILLAY_HAS_ACC | NUQSILLAY_HAS_N200, {0, 0, 9, 0, 0}, 0, 1, 0, {0, 0, 9, 0, 5, 0, 0, 0}},
    {'D', NUQSILLAY_NEAREST, 0, false, 5, NUQSILLAY_HAS_ACC | NUQSILLAY_HAS_N200, {0, 0, 9, 0, 0}, 0, 1, 14, {0}},
    {'E', NUQSILLAY_CLOSEST, 0, false, 20, NUQSILLAY_HAS_ACC | NUQSILLAY_HAS_N320 | NUQSILLAY_HAS_N300, {0}, 0, 1, 0, {0, 0, 0, 0, 20, 0, 0, 0}},
    {'E', NUQSILLAY_NEAREST, 0, false, 20, NUQSILLAY_HAS_ACC | NUQSILLAY_HAS_N320 | NUQSILLAY_HAS_N300, {0}, 0, 1, 0, {0, 0, 20, 0, 0, 0, 3, 420}},
    {'F', NUQSILLAY_FAST, 0, false, 10, NUQSILLAY_HAS_ACC, {0}, 0, 0.5, 0, {4, 0, 0, 0, 6, 0, 0, 0}},
    {'G', NUQSILLAY_IGNORE_ACCURACY, 0, false, 10, NUQSILLAY_HAS_MISSES | NUQSILLAY_HAS_N100, {0, 0, 0, 3, 0}, 2, 0, 0, {5, 0, 0, 3, 0, 2, 0, 0}},
    {'G', NUQSILLAY_IGNORE_ACCURACY, 1, false, 10, NUQSILLAY_HAS_MISSES | NUQSILLAY_HAS_N100, {0, 0, 0, 3, 0}, 2, 0, 0, {0, 0, 0, 3, 5, 2, 0, 0}},
    {'H', NUQSILLAY_FAST, 0, false, 4, NUQSILLAY_HAS_ACC | NUQSILLAY_HAS_MISSES, {0}, 9, 1, 0, {0, 0, 0, 0, 0, 4, 0, 0}},
    {'H', NUQSILLAY_CLOSEST, 0, false, 4, NUQSILLAY_HAS_ACC | NUQSILLAY_HAS_MISSES, {0}, 9, 1, 0, {0, 0, 0, 0, 0, 4, 0, 0}},
    {'H', NUQSILLAY_NEAREST, 0, false, 4, NUQSILLAY_HAS_ACC | NUQSILLAY_HAS_MISSES, {0}, 9, 1, 0, {0, 0, 0, 0, 0, 4, 1, 244}},
    {'I', NUQSILLAY_CLOSEST, 0, false, 5, NUQSILLAY_HAS_ACC | FIRST_THREE, {3, 3, 0, 0, 0}, 0, 1, 12, {0}},
    {'I', NUQSILLAY_CLOSEST, 0, false, 5, NUQSILLAY_HAS_ACC | FIRST_THREE, {3, 2, 0, 0, 0}, 0, 1, 0, {3, 2, 0, 0, 0, 0, 0, 0}},
    {'J', NUQSILLAY_IGNORE_ACCURACY, 0, false, 100000, 0, {0}, 0, 0, 0, {100000, 0, 0, 0, 0, 0, 0, 0}},
    {'J', NUQSILLAY_IGNORE_ACCURACY, 0, false, 100001, 0, {0}, 0, 0, 7, {0}},
    {'J', NUQSILLAY_IGNORE_ACCURACY, 0, false, 20, NUQSILLAY_HAS_N50, {0, 0, 0, 0, 1000000}, 0, 0, 0, {0, 0, 0, 0, 20, 0, 0, 0}},
    {'J', NUQSILLAY_IGNORE_ACCURACY, 0, false, 20, NUQSILLAY_HAS_N50, {0, 0, 0, 0, 1000001}, 0, 0, 10, {0}},
    {'K', NUQSILLAY_FAST, 0, false, 20, NUQSILLAY_HAS_ACC, {0}, 0, 1, 0, {20, 0, 0, 0, 0, 0, 0, 0}},
    {'K', NUQSILLAY_FAST, 0, false, 20, NUQSILLAY_HAS_ACC, {0}, 0, 1 + 0x1p-52, 11, {0}},
};

static struct query query_of(const struct play *p)
{
    struct query q = {
        .n_objects = p->n_objects, .method = p->method, .priority = p->priority, .classic = p->classic,
        .presence = p->presence, .misses = p->misses, .acc = p->acc,
    };
    memcpy(q.n, p->n, sizeof q.n);
    return q;
}

static void check_plays(void)
{
    for (size_t i = 0; i < sizeof plays / sizeof *plays; i++) {
        struct query q = query_of(&plays[i]);
        char what[] = {'p', 'l', 'a', 'y', ' ', plays[i].label, '\0'};
        check_outputs(generate, &q, VALUES, plays[i].status, plays[i].values, what, (long)i);
    }
}

/* Each later check broken after the earlier ones, so that the earlier one must answer. */
static void check_order(void)
{
    const uint32_t nothing[VALUES] = {0};
    struct query q = {.n_objects = 5, .method = NUQSILLAY_NEAREST, .presence = FIRST_THREE, .n = {3, 3, 0, 0, 0}};
    check_outputs(generate, &q, VALUES, 13, nothing, "order", 13);
    q.presence |= NUQSILLAY_HAS_ACC;
    check_outputs(generate, &q, VALUES, 14, nothing, "order", 14);
    q.method = NUQSILLAY_CLOSEST;
    check_outputs(generate, &q, VALUES, 12, nothing, "order", 12);

    const double outside[] = {NAN, -NAN, INFINITY, -INFINITY, -0x1p-1074, 1 + 0x1p-52};
    for (size_t i = 0; i < sizeof outside / sizeof *outside; i++) {
        q.acc = outside[i];
        check_outputs(generate, &q, VALUES, 11, nothing, "acc", (long)i);
        check_outputs(target, &q, 4, 11, nothing, "acc of target", (long)i);
    }

    q.n[1] = 1000001;
    check_outputs(generate, &q, VALUES, 10, nothing, "order", 10);
    q.priority = 2;
    check_outputs(generate, &q, VALUES, 8, nothing, "order", 8);
    q.priority = 0;
    for (int method = 4; method <= UINT8_MAX; method++) {
        q.method = (uint8_t)method;
        check_outputs(generate, &q, VALUES, 8, nothing, "method", method);
    }
    q.n_hold_notes = 100001;
    check_outputs(generate, &q, VALUES, 7, nothing, "order", 7);
}

/* Numbers in missing fields are not looked at; -0.0 is 0; hold notes count in full for a shortened play that does not say how many
 * were passed. */
static void check_fields(void)
{
    struct query q = {
        .n_objects = 20, .method = NUQSILLAY_FAST, .n = {ANY, ANY, ANY, ANY, ANY}, .misses = ANY, .passed = 3, .acc = NAN,
    };
    check_outputs(generate, &q, VALUES, 0, (uint32_t[]){20, 0, 0, 0, 0, 0, 0, 0}, "missing fields", 0);

    struct query zero = {.n_objects = 20, .method = NUQSILLAY_NEAREST, .presence = NUQSILLAY_HAS_ACC, .acc = -0.0};
    check_outputs(generate, &zero, VALUES, 0, (uint32_t[]){0, 0, 0, 0, 20, 0, ANY, -200u}, "acc", 0);
    check_outputs(target, &zero, 4, 0, (uint32_t[]){20, 0, 20, 0}, "acc of target", 0);

    struct query holds = {
        .n_objects = 20, .n_hold_notes = 7, .presence = NUQSILLAY_HAS_PASSED | NUQSILLAY_HAS_MISSES, .passed = 5, .misses = 2,
        .holds_passed = 3, .acc = 1,
    };
    check_outputs(generate, &holds, VALUES, 0, (uint32_t[]){10, 0, 0, 0, 0, 2, 0, 0}, "holds", 0);
    check_outputs(target, &holds, 4, 0, (uint32_t[]){12, 2, 10, 732}, "holds of target", 0);
    holds.classic = true;
    check_outputs(generate, &holds, VALUES, 0, (uint32_t[]){3, 0, 0, 0, 0, 2, 0, 0}, "holds", 1);
    check_outputs(target, &holds, 4, 0, (uint32_t[]){5, 2, 3, 300}, "holds of target", 1);
}

/* The holds passed, by the total hits of a chart of 20 objects and 7 holds. At an accuracy of 1 and with no count given every hit is a
 * 320; Nearest finds that with its first candidate. Check 7 is asked of the chart's own holds. */
static void check_holds(void)
{
    const struct {
        struct query q;
        uint32_t total;
    } rows[] = {
        {{.holds_passed = 3}, 27},
        {{.holds_given = true, .holds_passed = 0}, 20},
        {{.holds_given = true, .holds_passed = 1}, 21},
        {{.holds_given = true, .holds_passed = 6}, 26},
        {{.holds_given = true, .holds_passed = 7}, 27},
        {{.holds_given = true, .holds_passed = 8}, 27},
        {{.holds_given = true, .holds_passed = 1000001}, 27},
        {{.holds_given = true, .holds_passed = UINT32_MAX}, 27},
        {{.classic = true, .holds_given = true, .holds_passed = 0}, 20},
        {{.classic = true, .holds_given = true, .holds_passed = 3}, 20},
        {{.classic = true, .holds_given = true, .holds_passed = UINT32_MAX}, 20},
        {{.presence = NUQSILLAY_HAS_PASSED, .passed = 5, .holds_given = true, .holds_passed = 3}, 8},
        {{.presence = NUQSILLAY_HAS_PASSED, .passed = 5, .holds_given = true, .holds_passed = 9}, 12},
        {{.presence = NUQSILLAY_HAS_PASSED, .passed = 0, .holds_given = true, .holds_passed = 0}, 0},
        {{.presence = NUQSILLAY_HAS_PASSED, .passed = 5, .classic = true, .holds_given = true, .holds_passed = 3}, 5},
    };
    const uint32_t nothing[VALUES] = {0};

    for (size_t i = 0; i < sizeof rows / sizeof *rows; i++) {
        struct query q = rows[i].q;
        uint32_t total = rows[i].total, w = q.classic ? 60 : 61;
        q.n_objects = 20;
        q.n_hold_notes = 7;
        q.presence |= NUQSILLAY_HAS_ACC;
        q.acc = 1;
        check_outputs(target, &q, 4, 0, (uint32_t[]){total, 0, total, w * total}, "holds passed of target", (long)i);

        struct query closest = q;
        closest.method = NUQSILLAY_CLOSEST;
        /* If classic, n320 and n300 weigh the same and would share the hits, so n300 is given. */
        closest.presence |= NUQSILLAY_HAS_N300 | LAST_THREE;
        check_outputs(generate, &closest, VALUES, 0, (uint32_t[]){total, 0, 0, 0, 0, 0, 0, 0}, "holds passed of Closest", (long)i);
        const uint8_t others[] = {NUQSILLAY_IGNORE_ACCURACY, NUQSILLAY_FAST, NUQSILLAY_NEAREST};
        for (size_t k = 0; k < sizeof others; k++) {
            q.method = others[k];
            uint32_t tried = q.method == NUQSILLAY_NEAREST;
            check_outputs(generate, &q, VALUES, 0, (uint32_t[]){total, 0, 0, 0, 0, 0, tried, 0}, "holds passed", (long)i);
        }

        /* More misses than hits; then one hit too many is given. */
        struct query missed = q;
        missed.presence |= NUQSILLAY_HAS_MISSES;
        missed.misses = total + 1;
        check_outputs(target, &missed, 4, 0, (uint32_t[]){total, total, 0, w * total}, "misses of target", (long)i);
        check_outputs(generate, &missed, VALUES, 0, (uint32_t[]){0, 0, 0, 0, 0, total, 1, w * total}, "misses", (long)i);
        q.presence |= NUQSILLAY_HAS_N50;
        q.n[4] = total + 1;
        check_outputs(generate, &q, VALUES, 14, nothing, "holds passed, 14", (long)i);

        q.n_hold_notes = 100001;
        for (q.method = 0; q.method <= NUQSILLAY_NEAREST; q.method++)
            check_outputs(generate, &q, VALUES, 7, nothing, "holds passed, 7", (long)i);
        check_outputs(target, &q, 4, 7, nothing, "holds passed of target, 7", (long)i);
    }
}

/* What Nearest leaves of the target, its points below or above it, on the largest charts too. The other methods leave 0. */
static void check_left(void)
{
    const uint8_t five = NUQSILLAY_HAS_N320 | NUQSILLAY_HAS_N300 | LAST_THREE;
    const struct {
        struct query q;
        uint32_t values[VALUES];
    } rows[] = {
        {{.n_objects = 1, .acc = 9.0 / 61}, {0, 0, 0, 0, 1, 0, ANY, -1u}},
        {{.n_objects = 1, .acc = 11.0 / 61}, {0, 0, 0, 0, 1, 0, ANY, 1}},
        {{.n_objects = 20, .presence = five, .n = {20}, .acc = 0}, {20, 0, 0, 0, 0, 0, 0, -1220u}},
        {{.n_objects = 20, .presence = five, .n = {0, 0, 0, 0, 20}, .acc = 1}, {0, 0, 0, 0, 20, 0, 0, 1020}},
        {{.n_objects = 20, .presence = NUQSILLAY_HAS_MISSES, .misses = 20, .acc = 1}, {0, 0, 0, 0, 0, 20, 1, 1220}},
        {{.n_objects = 100000, .n_hold_notes = 100000, .acc = 0}, {0, 0, 0, 0, 200000, 0, ANY, -2000000u}},
        {{.n_objects = 100000, .n_hold_notes = 100000, .presence = NUQSILLAY_HAS_N50, .n = {0, 0, 0, 0, 200000}, .acc = 1},
         {0, 0, 0, 0, 200000, 0, 1, 10200000}},
        {{.n_objects = 100000, .n_hold_notes = 100000, .presence = five, .n = {200000}, .acc = 0},
         {200000, 0, 0, 0, 0, 0, 0, -12200000u}},
        {{.n_objects = 100000, .n_hold_notes = 100000, .presence = NUQSILLAY_HAS_MISSES, .misses = 200000, .acc = 1},
         {0, 0, 0, 0, 0, 200000, 1, 12200000}},
    };
    const uint32_t others[VALUES] = {ANY, ANY, ANY, ANY, ANY, ANY, 0, 0};

    for (size_t i = 0; i < sizeof rows / sizeof *rows; i++) {
        struct query q = rows[i].q;
        q.presence |= NUQSILLAY_HAS_ACC;
        for (q.method = 0; q.method < NUQSILLAY_NEAREST; q.method++)
            check_outputs(generate, &q, VALUES, 0, others, "left of another method", (long)i);
        check_outputs(generate, &q, VALUES, 0, rows[i].values, "left", (long)i);
    }
}

int main(int argc, char **argv)
{
    if (argc != 2 || !check_list(argv[1])) {
        fputs("calls: no list of records of 92 bytes\n", stderr);
        return 2;
    }
    check_plays();
    check_order();
    check_fields();
    check_holds();
    check_left();

    printf("calls: %u checked, %u differ\n", checked, differ);
    return differ != 0;
}
