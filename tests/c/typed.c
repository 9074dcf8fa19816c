/* typed: checks what the library's two calls for typed sheets answer and what they leave in the output and in told: a text and its sheet,
 * the sheet and its text, one fault of each kind of answer, and outputs and told of every length.
 * Prints 'typed: N checked, D differ'; ends with 1 if any differs. */
#include <stdio.h>
#include <string.h>

#include "nuqsillay.h"

enum { ROOM = 512, TOLD = 5 };

/* What stands in lent memory before a call. */
#define BEFORE 0xA5
#define UNTOLD 0x5E171CED5E171CEDu

typedef uint32_t call(const uint8_t *in, size_t in_len, uint8_t *out, size_t out_len, uint64_t *told, size_t told_len);

static unsigned checked, differ;

/* An input with an output and a told of so many places; all of the memory must be as expected: the first `made` bytes of right, and the
 * first `told_count` numbers of numbers. */
static void check(call *by, const void *in, size_t in_len, size_t out_len, size_t told_len, uint32_t status, const void *right,
                  size_t made, const uint64_t *numbers, size_t told_count, const char *what)
{
    uint8_t out[ROOM], out_right[ROOM];
    uint64_t told[TOLD], told_right[TOLD];
    memset(out, BEFORE, sizeof out);
    memset(out_right, BEFORE, sizeof out_right);
    memcpy(out_right, right, made);
    for (size_t i = 0; i < TOLD; i++)
        told[i] = told_right[i] = i < told_count ? numbers[i] : UNTOLD;
    for (size_t i = 0; i < TOLD; i++)
        told[i] = UNTOLD;

    uint32_t answer = by(in, in_len, out, out_len, told, told_len);
    checked++;
    if (answer != status || memcmp(out, out_right, sizeof out) != 0 || memcmp(told, told_right, sizeof told) != 0) {
        differ++;
        printf("typed: %s, %zu bytes out, %zu told: differs\n", what, out_len, told_len);
    }
}

/* Every length of output and of told. `short_by` is the number of too short an output, of which `least` numbers must be told. */
static void check_lengths(call *by, const void *in, size_t in_len, const void *right, size_t made, uint32_t short_by, size_t least,
                          const char *what)
{
    const uint64_t length[1] = {made};
    for (size_t told_len = 0; told_len <= TOLD; told_len++)
        for (size_t out_len = 0; out_len <= ROOM; out_len++) {
            bool fits = out_len >= made && told_len >= least;
            check(by, in, in_len, out_len, told_len, fits ? 0 : short_by, right, fits ? made : 0, length, fits ? 1 : 0, what);
        }
}

static const char text[] = "# two rows\r\nCHART 20\t0\nplay 0 nearest acc 97.53 n300 7 # n50 3\nplay 0 fast worst holds 0";

/* One chart of 20 objects; no own weights; Nearest with n300 and acc; Fast, worst, with holds passed. */
static const uint8_t sheet[4 + 8 + 4 + 4 + 2 * 48] = {
    [0] = 1, [4] = 20, [16] = 2, [22] = 3, [25] = 0x42, [32] = 7, [56] = 0xD9, [57] = 0x3D, [58] = 0x79, [59] = 0x58, [60] = 0xA8,
    [61] = 0x35, [62] = 0xEF, [63] = 0x3F, [70] = 1, [71] = 1, [74] = 1};

static const char back[] = "chart 20 0\nplay 0 nearest n300 7 acc 97.53\nplay 0 fast worst holds 0\n";

int main(void)
{
    check_lengths(nuqsillay_sheet_of, text, strlen(text), sheet, sizeof sheet, 15, 3, "a text");
    check_lengths(nuqsillay_text_of, sheet, sizeof sheet, back, strlen(back), 5, 1, "a sheet");
    check_lengths(nuqsillay_sheet_of, back, strlen(back), sheet, sizeof sheet, 15, 3, "the text of a sheet");

    static const char twice[] = "chart 20 0\nplay 0 nearest n300 7 n300 8\n";
    static const uint64_t fault[3] = {2, 33, 4};
    check(nuqsillay_sheet_of, twice, strlen(twice), ROOM, 3, 4, "", 0, fault, 3, "a count given twice");
    check(nuqsillay_sheet_of, twice, strlen(twice), 0, TOLD, 4, "", 0, fault, 3, "a count given twice, no output");
    check(nuqsillay_sheet_of, twice, strlen(twice), ROOM, 2, 15, "", 0, fault, 0, "a count given twice");

    uint8_t bad[sizeof sheet];
    static const uint64_t row[1] = {1};
    check(nuqsillay_text_of, sheet, sizeof sheet - 1, ROOM, 1, 1, "", 0, row, 0, "a sheet that is cut");
    memcpy(bad, sheet, sizeof bad);
    bad[20 + 48 + 2] = 4;
    check(nuqsillay_text_of, bad, sizeof bad, ROOM, 1, 8, "", 0, row, 1, "an unknown method in row 1");
    check(nuqsillay_text_of, bad, sizeof bad, 0, TOLD, 8, "", 0, row, 1, "an unknown method in row 1, no output");
    memcpy(bad, sheet, sizeof bad);
    bad[20 + 48 + 7] = 1;
    check(nuqsillay_text_of, bad, sizeof bad, ROOM, 2, 9, "", 0, row, 1, "byte 7 of row 1");
    check(nuqsillay_text_of, bad, sizeof bad, ROOM, 0, 5, "", 0, row, 0, "byte 7 of row 1");

    printf("typed: %u checked, %u differ\n", checked, differ);
    return differ != 0;
}
