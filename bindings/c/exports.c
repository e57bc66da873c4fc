/* Holds what jcc.h says of the exports against the libraries. It is C and C++:
 *
 *   in='-O2 -Wall -Wextra -Werror -pedantic exports.c'
 *   out='-L../../target/staticlib -lexports -lrecords -lrecognisers -o ../../target/jcc_exports'
 *   gcc -std=c11 $in $out && ../../target/jcc_exports
 *   g++ -std=c++17 -x c++ $in -x none $out && ../../target/jcc_exports
 */
#include "jcc.h"

#include <stdio.h>
#include <stdlib.h>
#include <string.h>

#define BARS 60
#define PRICES (BARS * JCC_BAR_PRICES)
#define FILLER 200

static const uint32_t ones[BARS + 3] = {1, 0, 1, 2, 1, 0, 30};
static struct jcc_bar bars[BARS];
static double prices[PRICES];
static uint8_t rows[BARS * JCC_ROW_BYTES];
static uint8_t sheet[sizeof rows + 5];
static uint32_t counts[JCC_COUNTS + 5];
static uint32_t answers[6];
static unsigned facts;

#define EXPECT(fact) expect(fact, #fact, __LINE__)

static void expect(int holds, const char *fact, int line)
{
    if (!holds) {
        fprintf(stderr, "line %d: not so: %s\n", line, fact);
        exit(EXIT_FAILURE);
    }
    facts++;
}

/* Whether the sheet begins with these bytes and the others were not written; then it is made anew. */
static int sheet_is(const uint8_t *bytes, size_t len)
{
    int same = memcmp(sheet, bytes, len) == 0;
    size_t i;

    for (i = len; i < sizeof sheet; i++)
        same = same && sheet[i] == FILLER;
    memset(sheet, FILLER, sizeof sheet);
    return same;
}

static uint32_t feed(const uint32_t *sizes, size_t sizes_len, size_t len, size_t sheet_len)
{
    return jcc_feed(JCC_STANDARD, sizes, sizes_len, prices, len, sheet, sheet_len);
}

static void check_feeds(void)
{
    static double many[(JCC_MOST_BARS + 1) * JCC_BAR_PRICES];
    size_t i, k;

    /* a row is what jcc_label gives over the bars up to its own, by bytes and by records */
    for (i = 0; i < BARS; i++)
        for (k = 0; k < JCC_RECOGNISERS; k++) {
            uint32_t pair = jcc_label_bars((uint32_t)k, 1, JCC_STANDARD, bars, i + 1);
            EXPECT(pair == jcc_label((uint32_t)k, 1, JCC_STANDARD, (const uint8_t *)bars,
                                     (i + 1) * JCC_BAR_BYTES));
            rows[i * JCC_ROW_BYTES + 2 * k] = (uint8_t)(pair / 256);
            rows[i * JCC_ROW_BYTES + 2 * k + 1] = (uint8_t)(pair % 256);
        }
    EXPECT(feed(ones, 0, PRICES, sizeof sheet) == 0 && sheet_is(rows, sizeof rows));
    EXPECT(feed(ones, 4, PRICES, sizeof sheet) == 0 && sheet_is(rows, sizeof rows));
    EXPECT(feed(ones, BARS + 3, PRICES, sizeof rows) == 0 && sheet_is(rows, sizeof rows));
    EXPECT(feed(ones, 7, 0, 0) == 0 && sheet_is(rows, 0));
    EXPECT(feed(ones, 7, PRICES - 1, sizeof sheet) == JCC_REFUSAL_BYTES && sheet_is(rows, 0));
    EXPECT(feed(ones, 7, PRICES, sizeof rows - 1) == JCC_REFUSAL_SHEET && sheet_is(rows, 0));
    EXPECT(jcc_feed(JCC_STANDARD, ones, 0, many, sizeof many / sizeof *many, sheet, 0)
           == JCC_REFUSAL_HISTORY);
    EXPECT(jcc_feed(2.0, 500, 50, 100, 50, 500, 2, 300, 2.0, 500, 100, JCC_MOST_TENTHS + 1, 100, ones,
                    0, prices, PRICES - 1, sheet, 0)
           == JCC_REFUSAL_THRESHOLD);
}

static uint32_t look(uint32_t k, uint32_t offset, size_t sheet_len)
{
    return jcc_look(k, offset, JCC_STANDARD, ones, 7, prices, PRICES, sheet, sheet_len);
}

static uint32_t ordinal(uint32_t k, uint32_t offset, size_t len, size_t sheet_len)
{
    return jcc_look_ordinal(k, offset, JCC_STANDARD, ones, 7, prices, len, sheet, sheet_len);
}

static void check_looks(void)
{
    uint32_t k, offset;

    for (k = 0; k < JCC_RECOGNISERS; k++)
        for (offset = 1; offset <= JCC_FARTHEST_LOOK; offset++) {
            const uint8_t *row = rows + (BARS - offset) * JCC_ROW_BYTES;
            uint32_t pair = look(k, offset, sizeof sheet);
            EXPECT(sheet_is(rows, sizeof rows));
            EXPECT(pair == jcc_label_bars(k, offset, JCC_STANDARD, bars, BARS));
            EXPECT(k == 12 || pair == row[2 * k] * 256u + row[2 * k + 1]);
            EXPECT(ordinal(k, offset, PRICES, sizeof rows) == BARS + 1 - offset);
            EXPECT(sheet_is(rows, sizeof rows));
        }
    /* a refused look leaves the rows of its feeds, refused feeds leave the sheet */
    EXPECT(look(18, 0, sizeof sheet) == JCC_REFUSED + JCC_REFUSAL_RECOGNISER);
    EXPECT(sheet_is(rows, sizeof rows));
    EXPECT(look(17, 0, sizeof sheet) == JCC_REFUSED + JCC_REFUSAL_OFFSET);
    EXPECT(look(0, 44, sizeof sheet) == JCC_REFUSED + JCC_REFUSAL_LOOK);
    EXPECT(sheet_is(rows, sizeof rows));
    EXPECT(look(18, 44, 0) == JCC_REFUSED + JCC_REFUSAL_SHEET && sheet_is(rows, 0));
    /* the three cases of ordinal 0 */
    EXPECT(ordinal(3, 6, 20, sizeof sheet) == 0 && sheet_is(rows, 5 * JCC_ROW_BYTES));
    EXPECT(ordinal(3, 5, 20, sizeof sheet) == 1 && sheet_is(rows, 5 * JCC_ROW_BYTES));
    EXPECT(ordinal(18, 5, 20, sizeof sheet) == 0 && sheet_is(rows, 5 * JCC_ROW_BYTES));
    EXPECT(ordinal(3, 5, 19, sizeof sheet) == 0 && sheet_is(rows, 0));
}

static uint32_t tally(size_t counts_len)
{
    return jcc_tally(JCC_STANDARD, ones, 7, prices, PRICES, sheet, sizeof sheet, counts, counts_len);
}

static void check_tallies(void)
{
    static uint32_t all[JCC_COUNTS];
    size_t i, k;

    for (i = 0; i < BARS; i++)
        for (k = 0; k < JCC_RECOGNISERS; k++)
            all[JCC_LABELS * k + rows[i * JCC_ROW_BYTES + 2 * k]]++;
    /* numbers past the counts stay, those that are missing are not written */
    counts[JCC_COUNTS] = 7;
    EXPECT(tally(sizeof counts / sizeof *counts) == 0 && sheet_is(rows, sizeof rows));
    EXPECT(memcmp(counts, all, sizeof all) == 0 && counts[JCC_COUNTS] == 7);
    memset(counts, 0, sizeof counts);
    EXPECT(tally(JCC_LABELS) == 0 && sheet_is(rows, sizeof rows));
    EXPECT(memcmp(counts, all, JCC_LABELS * sizeof *all) == 0);
    EXPECT(counts[JCC_LABELS] == 0 && all[JCC_LABELS] != 0);
    /* those of a fresh box are zeros */
    memset(counts, 0, sizeof counts);
    counts[JCC_COUNTS - 1] = 1;
    EXPECT(tally(JCC_COUNTS) == JCC_REFUSAL_HISTORY && sheet_is(rows, 0));
    EXPECT(counts[0] == 0 && counts[JCC_COUNTS - 1] == 1);
}

/* Minute bars from minute 60 on, in hours of one window from 60 to 100. */
static uint32_t terms(uint32_t minutes, size_t hours_len, size_t stamps_len, const uint32_t *sizes,
                      size_t sizes_len, size_t sheet_len, size_t answers_len)
{
    static const uint32_t hours[10] = {60, 100, 200, 300, 300, 400, 500, 600, 700, 800};
    static uint32_t stamps[BARS];
    size_t i;

    for (i = 0; i < BARS; i++)
        stamps[i] = (uint32_t)(60 + i);
    for (i = 0; i < sizeof answers / sizeof *answers; i++)
        answers[i] = FILLER;
    return jcc_terms(JCC_STANDARD, minutes, hours, hours_len, stamps, stamps_len, prices,
                     stamps_len * JCC_BAR_PRICES, sizes, sizes_len, sheet, sheet_len, answers,
                     answers_len);
}

static int answers_are(uint32_t a, uint32_t b, uint32_t c, uint32_t d)
{
    return answers[0] == a && answers[1] == b && answers[2] == c && answers[3] == d;
}

static void check_terms(void)
{
    static const uint32_t sizes[4] = {7, 20, 0, 0}, late[4] = {41, 3, 12, 0};
    static double ended[6 * JCC_BAR_PRICES];
    static uint8_t term_rows[6 * JCC_ROW_BYTES];
    const size_t whole = sizeof sheet;
    size_t i, k;

    /* the term bars of 27 minutes */
    for (i = 0; i < 27; i++) {
        double *bar = ended + i / 5 * JCC_BAR_PRICES;
        if (i % 5 == 0)
            memcpy(bar, prices + 4 * i, sizeof(struct jcc_bar));
        bar[1] = prices[4 * i + 1];
        bar[2] = prices[4 * i + 2] > bar[2] ? prices[4 * i + 2] : bar[2];
        bar[3] = prices[4 * i + 3] < bar[3] ? prices[4 * i + 3] : bar[3];
    }
    EXPECT(jcc_feed(JCC_STANDARD, ones, 0, ended, 24, term_rows, sizeof term_rows) == 0);
    /* a run of 20 ends where the bars do; the second close has nothing to end */
    EXPECT(terms(5, 2, 27, sizes, 4, whole, 6) == 0 && answers_are(1, 4, 1, 0));
    EXPECT(answers[4] == FILLER && sheet_is(term_rows, sizeof term_rows));
    EXPECT(terms(5, 8, 27, sizes, 4, whole, 1) == 0 && answers_are(1, FILLER, FILLER, FILLER));
    EXPECT(sheet_is(term_rows, sizeof term_rows));
    /* a run needs room for its minute bars; its bars are passed over though it is refused */
    k = 25 * JCC_ROW_BYTES;
    EXPECT(terms(5, 2, 33, late, 4, k, 6) == 0);
    EXPECT(answers_are(JCC_CALL_REFUSED + JCC_REFUSAL_SHEET, 0, 0, 0) && sheet_is(rows, 0));
    EXPECT(terms(5, 2, 46, late, 4, whole, 6) == 0 && sheet_is(rows, 0));
    EXPECT(answers_are(JCC_CALL_REFUSED + JCC_REFUSAL_HOURS, JCC_CALL_REFUSED + JCC_REFUSAL_HOURS,
                       JCC_CALL_REFUSED + JCC_REFUSAL_HOURS, 0));
    /* a making that is refused: a length of terms, no window, half a window, five windows */
    EXPECT(terms(6, 2, 27, sizes, 4, whole, 6) == JCC_REFUSAL_LAYER);
    EXPECT(terms(5, 0, 27, sizes, 4, whole, 6) == JCC_REFUSAL_LAYER);
    EXPECT(terms(5, 3, 27, sizes, 4, whole, 6) == JCC_REFUSAL_LAYER);
    EXPECT(terms(5, 10, 27, sizes, 4, whole, 6) == JCC_REFUSAL_LAYER);
    EXPECT(answers_are(FILLER, FILLER, FILLER, FILLER) && sheet_is(rows, 0));
}

int main(void)
{
    uint32_t seed = 1;
    size_t i, j;

    for (i = 0; i < BARS; i++) {
        double open = i == 0 ? 50.0 : bars[i - 1].close, part[3];
        for (j = 0; j < 3; j++) {
            seed = seed * UINT32_C(1664525) + UINT32_C(1013904223);
            part[j] = (double)(seed >> 16) / 65536.0;
        }
        bars[i].open = open;
        bars[i].close = open + 4.0 * part[0] - 2.0;
        bars[i].high = (bars[i].close > open ? bars[i].close : open) + part[1];
        bars[i].low = (bars[i].close < open ? bars[i].close : open) - part[2];
    }
    memcpy(prices, bars, sizeof prices);
    memset(sheet, FILLER, sizeof sheet);
    check_feeds();
    check_looks();
    check_tallies();
    check_terms();
    printf("%u facts hold\n", facts);
    return EXIT_SUCCESS;
}
