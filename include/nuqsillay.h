/* Nuqsillay: judgement counts of osu!mania plays. Link target/staticlib/libnuqsillay.a, which `tools/staticlib nuqsillay` writes.
 * docs/RULES.md tells the words, the records and the checks.
 *
 * Each call answers NUQSILLAY_OK, or the number of the check that refuses its input; a refused call leaves its outputs as they were,
 * but for told of the last two calls, which tells of the refusal. nuqsillay_sheet_of alone has numbers of its own, the faults of a text.
 * No call allocates, keeps a pointer, or fails otherwise. Pointers must not be null; an array is a pointer and its length. */
#ifndef NUQSILLAY_H
#define NUQSILLAY_H

#include <stdbool.h>
#include <stddef.h>
#include <stdint.h>

#ifdef __cplusplus
extern "C" {
#endif

enum nuqsillay_status {
    NUQSILLAY_OK = 0,
    NUQSILLAY_SHEET_CUT = 1,      /* the bytes of a sheet end inside a count or a section */
    NUQSILLAY_CHARTS_OVER = 2,    /* a sheet has over 256 charts */
    NUQSILLAY_QUERIES_OVER = 3,   /* a sheet has over 1,024 queries */
    NUQSILLAY_BYTES_LEFT = 4,     /* bytes follow a sheet's last query */
    NUQSILLAY_OUTPUT_SHORT = 5,   /* an output has too few places */
    NUQSILLAY_NO_CHART = 6,       /* a row's chart index is not below the number of charts */
    NUQSILLAY_CHART_OVER = 7,     /* a chart has over 100,000 objects or hold notes */
    NUQSILLAY_UNKNOWN_CODE = 8,   /* method, priority or a row's classic is none of the known ones */
    NUQSILLAY_FIELD_LEFT = 9,     /* a row's missing field, or its last one where byte 6 is 0, is not zero, or its byte 6 is above
                                     1, or its byte 7 is not zero */
    NUQSILLAY_COUNT_OVER = 10,    /* a given count, misses too, is over 1,000,000 */
    NUQSILLAY_ACC_OUTSIDE = 11,   /* acc is below 0, above 1, or NaN */
    NUQSILLAY_OVERFULL = 12,      /* Closest: acc is given, hits remain, exactly two counts are missing, and the given ones sum
                                     to over the remaining hits */
    NUQSILLAY_ACC_MISSING = 13,   /* Nearest, and a relay: acc is missing */
    NUQSILLAY_NO_SPLIT = 14,      /* Nearest: no split exists, as the given counts sum to over the remaining hits, or all five
                                     are given with another sum */
    NUQSILLAY_BAD_WEIGHTS = 18,   /* weights do not fall from at most 100 to at least 1: strictly, but for the first two, which may
                                     be equal; of a sheet also: its count of own weights is over 1 */
    NUQSILLAY_OWN_WEIGHTS = 19,   /* a row of Fast or Closest in a sheet with own weights */
    NUQSILLAY_RELAY_CHARTS = 21   /* a relay has fewer than two or more than eight charts, or a number of numbers that is not in threes */
};

enum nuqsillay_method {
    NUQSILLAY_IGNORE_ACCURACY = 0,
    NUQSILLAY_FAST = 1,
    NUQSILLAY_CLOSEST = 2,
    NUQSILLAY_NEAREST = 3
};

enum nuqsillay_priority {
    NUQSILLAY_BEST_CASE = 0,
    NUQSILLAY_WORST_CASE = 1
};

/* The bits of presence: which fields are given. A missing field's number is not looked at. */
enum nuqsillay_presence {
    NUQSILLAY_HAS_N320 = 1,
    NUQSILLAY_HAS_N300 = 2,
    NUQSILLAY_HAS_N200 = 4,
    NUQSILLAY_HAS_N100 = 8,
    NUQSILLAY_HAS_N50 = 16,
    NUQSILLAY_HAS_MISSES = 32,
    NUQSILLAY_HAS_ACC = 64,
    NUQSILLAY_HAS_PASSED = 128
};

/* The accuracy of six counts, to *value: points / (w * all six) as one division, 0.0 for no hits. Refused by 10. */
uint32_t nuqsillay_accuracy(uint32_t n320, uint32_t n300, uint32_t n200, uint32_t n100, uint32_t n50, uint32_t misses,
                            bool classic, double *value);

/* presence: NUQSILLAY_HAS_MISSES and NUQSILLAY_HAS_PASSED; the other bits are not looked at.
 * holds_given false: the hold notes count in full, even for a shortened play, and holds_passed is not looked at; true: the
 * non-classic total has the smaller of holds_passed, the hold notes that were passed, and n_hold_notes. Classic ignores it.
 * holds_passed has no limit of its own.
 * out, of at least 4 numbers: out[0] total hits, out[1] misses, out[2] remaining hits, out[3] the rounded target.
 * Refused by 5, 7, 10, 11, in that order. */
uint32_t nuqsillay_target(uint32_t n_objects, uint32_t n_hold_notes, bool classic, uint8_t presence, uint32_t misses,
                          uint32_t passed, bool holds_given, uint32_t holds_passed, double acc, uint32_t *out,
                          size_t out_len);

/* The direct call: the split of one play. holds_given and holds_passed are as in nuqsillay_target.
 * out, of at least 8 numbers: out[0] n320, out[1] n300, out[2] n200, out[3] n100, out[4] n50, out[5] misses, out[6] tried (the
 * candidates that Nearest tried, 0 for the others), out[7] left: for Nearest the rounded target minus the points of the five
 * counts, as an int32_t (negative where the points are above the target), 0 for the others.
 * Refused by 5, 7, 8, 10, 11, then Closest by 12, Nearest by 13, 14, in that order. */
uint32_t nuqsillay_generate(uint32_t n_objects, uint32_t n_hold_notes, uint8_t method, uint8_t priority, bool classic,
                            uint8_t presence, uint32_t n320, uint32_t n300, uint32_t n200, uint32_t n100, uint32_t n50,
                            uint32_t misses, uint32_t passed, bool holds_given, uint32_t holds_passed, double acc,
                            uint32_t *out, size_t out_len);

/* Works a sheet: every row's answer to out, 36 bytes each, as nine little-endian fields: status u32, then the eight of
 * nuqsillay_generate, seven u32 and left i32. A row's status is 0, or 6 to 14 or 19 with zeros after it; the next row is worked
 * all the same. Bytes past the last answer stay. totals, of at least 7 numbers: totals[0] how many rows have status 0, totals[1]
 * to totals[6] the sums of their n320, n300, n200, n100, n50 and misses; a row with another status adds nothing, and numbers past
 * the seventh stay. Refused by 5 where totals_len is under 7, before anything else; then by 1 to 5 and 18: each section's count is
 * judged (2, 18, 3) before its records (1), own weights (18) once they are all there, then 4, then 5 of out. sheet, out and
 * totals must not overlap.
 *
 * A sheet, little-endian: the number of charts (u32, at most 256), the charts (8 bytes: objects u32, hold notes u32), the number
 * of sets of own weights (u32, 0 or 1), the set (20 bytes: five u32 from n320 to n50), the number of queries (u32, at most
 * 1,024), the queries (48 bytes):
 *   0 chart index u16, 2 method u8, 3 priority u8, 4 classic u8 (0, 1), 5 presence u8, 6 holds_given u8 (0, 1), 7 a zero byte,
 *   8 n320, 12 n300, 16 n200, 20 n100, 24 n50, 28 misses, 32 passed, each u32, 36 acc f64, 44 holds_passed u32; a missing
 *   field is all zero bytes, and so is holds_passed where byte 6 is 0.
 *
 * With own weights Nearest scores by them, w being that of n320: classic then says only whether hold notes are judged twice, and
 * n300 counts as given with 0 where it weighs as much as n320 and both are missing. IgnoreAccuracy needs no weights; Fast and
 * Closest are stopped by 19, after 9. The other calls keep the standard weights. A row of Nearest tries at most 88,434
 * candidates, with own weights 1,940,598. */
uint32_t nuqsillay_work_sheet(const uint8_t *sheet, size_t sheet_len, uint8_t *out, size_t out_len, uint64_t *totals,
                              size_t totals_len);

/* The strides of Nearest's walk under two weightings, a and b, each from n320 to n50. out, of at least 320 numbers: 64 rows of
 * five, from n320 to n50. Rows 0 to 31 are a's, one for each value of presence's five lowest bits, rows 32 to 63 b's. A stride
 * is q at a middle and 1 elsewhere; where a weighting's first two are equal and both missing, n300 counts as given. Numbers
 * past the 320th stay. Refused by 18, 5, in that order. */
uint32_t nuqsillay_strides(uint32_t a320, uint32_t a300, uint32_t a200, uint32_t a100, uint32_t a50, uint32_t b320,
                           uint32_t b300, uint32_t b200, uint32_t b100, uint32_t b50, uint32_t *out, size_t out_len);

/* A relay: two to eight charts played to their end, all classic or all not, with one accuracy. plays has three numbers a chart, in order: its
 * objects, its hold notes (in full; classic does not count them) and its misses, of which at most its total hits count. acc_given false:
 * there is no accuracy, and acc is not looked at.
 * The pooled target is that of one play of all their hits. The nearest split of what remains of all charts is dealt to them in order, the best
 * judgement first: no other counts of the charts with these misses lie nearer to the target.
 * out, of at least 1 + 6 * (charts) numbers: out[0] tried, at most 88,434; then n320, n300, n200, n100, n50 and misses of each chart. Numbers
 * past them stay. Refused by 21, 5, 7, 10, 11, 13, in that order, 7 and 10 if they hold of any chart. plays and out must not overlap. */
uint32_t nuqsillay_relay(bool classic, bool acc_given, double acc, const uint32_t *plays, size_t plays_len, uint32_t *out,
                         size_t out_len);

/* The sheet of a text that is typed (docs/RULES.md, 'A typed sheet'), to the front of out; bytes past it stay. Returns 0 with told[0] the
 * sheet's length; or the number of the text's first fault, 1 to 14, with told[0] its line (from 1), told[1] where its word starts in
 * text (from 0) and told[2] the word's length; or 15: out_len is under the sheet's length (at most 51,232), or told_len under 3, which
 * is asked first. Whatever is not 0 leaves out as it was; 15 leaves told too. text, out and told must not overlap. */
uint32_t nuqsillay_sheet_of(const uint8_t *text, size_t text_len, uint8_t *out, size_t out_len, uint64_t *told,
                            size_t told_len);

/* The text of a sheet, to the front of out; bytes past it stay. Returns 0 with told[0] the text's length; 1, 2, 3, 4 or 18, as
 * nuqsillay_work_sheet refuses a sheet; 8 or 9 with told[0] the index of the first row that one of them stops; or 5: out_len is under
 * the text's length, after these, or told_len is 0, before anything else. Whatever is not 0 leaves out as it was. sheet, out and told
 * must not overlap. */
uint32_t nuqsillay_text_of(const uint8_t *sheet, size_t sheet_len, uint8_t *out, size_t out_len, uint64_t *told,
                           size_t told_len);

#ifdef __cplusplus
}
#endif

#endif
