/* Eighteen recognisers of candlestick patterns. Three static libraries have the functions that are
 * declared here, and may be linked together; `bin/staticlib NAME` writes each to target/staticlib:
 *
 *   recognisers   jcc_label
 *   records       jcc_label_bars
 *   exports       jcc_feed, jcc_look, jcc_look_ordinal, jcc_tally, jcc_terms
 *
 * What holds of all of them:
 *
 * - A run of elements is passed as a pointer and the number of its elements. The pointer is not null
 *   and aligned for its elements, even if there are none. What is written overlaps no other argument.
 * - They read and write the elements they are passed and nothing else, keep nothing, allocate nothing,
 *   and may be called on several threads at once.
 * - Whatever the numbers and elements are, they return. A call that they refuse says why: the first
 *   refusal that applies, in the order that stands with each. */
#ifndef JCC_H
#define JCC_H

#include <stddef.h>
#include <stdint.h>

#ifdef __cplusplus
extern "C" {
#endif

/* ---- numbers */

/* The recognisers are numbered 0 to JCC_RECOGNISERS - 1, the labels 0 to JCC_LABELS - 1. */
#define JCC_RECOGNISERS 18
#define JCC_LABELS 38

/* The bytes and the prices of a bar, and the most bars of a history. */
#define JCC_BAR_BYTES 32
#define JCC_BAR_PRICES 4
#define JCC_MOST_BARS 1000000

/* A sheet's row: for recognisers 0 to 17 the code of v1, then the code of v2. */
#define JCC_ROW_BYTES (2 * JCC_RECOGNISERS)

/* The counts of a tally: how many bars got code c as v1 of recogniser k is at JCC_LABELS * k + c. */
#define JCC_COUNTS (JCC_RECOGNISERS * JCC_LABELS)

/* The greatest offset of a look. */
#define JCC_FARTHEST_LOOK 43

/* A result of jcc_label, jcc_label_bars or jcc_look of at least JCC_REFUSED is a refusal: the
 * difference is its number. So is an answer of jcc_terms of at least JCC_CALL_REFUSED. */
#define JCC_REFUSED UINT32_C(65536)
#define JCC_CALL_REFUSED UINT32_C(16777216)

/* Why a call is refused. 8 and 9 are for lines of text. */
enum jcc_refusal {
    JCC_REFUSAL_RECOGNISER = 1, /* the recogniser is above 17 */
    JCC_REFUSAL_OFFSET = 2,     /* the offset is 0 */
    JCC_REFUSAL_THRESHOLD = 3,  /* a threshold is outside its limits or NaN */
    JCC_REFUSAL_BYTES = 4,      /* bytes or prices don't make whole bars; a run has not a stamp a bar */
    JCC_REFUSAL_HISTORY = 5,    /* more than 1,000,000 bars; a tally that doesn't add up */
    JCC_REFUSAL_SHEET = 6,      /* the sheet has fewer than 36 bytes for each bar */
    JCC_REFUSAL_LOOK = 7,       /* the offset of a look is above 43 */
    JCC_REFUSAL_STAMP = 10,     /* a stamp is not above the one before it, in this call or an earlier */
    JCC_REFUSAL_HOURS = 11,     /* a stamp lies outside all windows */
    JCC_REFUSAL_LAYER = 12      /* hours or minutes break the rules of jcc_terms */
};

/* The thresholds; the digits of a name are the recogniser's number. th0 and th8 go from 0.0 to
 * 10,000.0, the others to JCC_MOST_WHOLE, but th13 and th14, which count tenths, to JCC_MOST_TENTHS:
 * at 105 a doji's height is more than 10.5 times its body. Whoever passes 10 for th13 or th14 as before
 * gets a tenth of what he means. All are tried in every call. */
#define JCC_MOST_WHOLE 1000000
#define JCC_MOST_TENTHS 10000000
#define JCC_THRESHOLDS                                                                            \
    double th0, uint32_t z2, uint32_t th2, uint32_t z3, uint32_t th3, uint32_t zdf5, uint32_t th6, \
        uint32_t zdf7, double th8, uint32_t zf8, uint32_t th10, uint32_t th13, uint32_t th14

/* The standard ones, as arguments. */
#define JCC_STANDARD 2.0, 500, 50, 100, 50, 500, 2, 300, 2.0, 500, 100, 100, 100

/* ---- the plain call */

/* The labels of one bar of a history.
 *
 *   recogniser  0 to 17
 *   offset      which bar is judged: 1 is the newest, 2 the one before; an offset beyond the history
 *               gives the recogniser's short pair
 *   bars, len   the history, oldest bar first: len bytes, 32 to a bar, which are the bits of open,
 *               close, high and low as double, each little-endian. Any double is allowed, NaN and
 *               infinities too. The bytes need no alignment.
 *
 * The result is v1 * 256 + v2, the codes of two labels, or JCC_REFUSED plus a refusal: 1 to 5.
 *
 * The call reads only the bars that the rule can see, at most 42, and writes nothing. */
uint32_t jcc_label(uint32_t recogniser, uint32_t offset, JCC_THRESHOLDS, const uint8_t *bars,
                   size_t len);

/* Four prices. */
struct jcc_bar {
    double open, close, high, low;
};

/* The same over count bars. Refusal 4 can't arise. */
uint32_t jcc_label_bars(uint32_t recogniser, uint32_t offset, JCC_THRESHOLDS,
                        const struct jcc_bar *bars, size_t count);

/* ---- feeds: every bar of a history, labelled as it comes in */

/* A fresh box is fed a history, and each bar gets a row of labels over the bars up to it.
 *
 *   sizes       the bars of each feed, one after the other. 0 is an empty feed; a size beyond the bars
 *               that are left takes those; what the sizes leave goes into one last feed, so that no size
 *               at all is one feed. No result depends on them.
 *   prices      four to a bar, open, close, high and low, oldest bar first. Any double is allowed.
 *   sheet       gets a row of JCC_ROW_BYTES for each bar, from its first byte on. Bytes past the rows
 *               stay as they are.
 *
 * The result is 0, or the refusal that one feed of all the bars gets: 3 to 6. A refusal leaves the
 * whole sheet as it is. */
uint32_t jcc_feed(JCC_THRESHOLDS, const uint32_t *sizes, size_t sizes_len, const double *prices,
                  size_t prices_len, uint8_t *sheet, size_t sheet_len);

/* The same feeds, then a look at the bar at an offset, from 1 to JCC_FARTHEST_LOOK: the pair that
 * jcc_label gives over the whole history. For all recognisers but 12, whose gate reads the newest bars,
 * that is the pair in the bar's row too.
 *
 * The result is v1 * 256 + v2, or JCC_REFUSED plus a refusal: that of the feeds, which leaves the
 * sheet as it is, otherwise 1, 2 or 7 of the look, which leaves the rows of its feeds in the sheet. */
uint32_t jcc_look(uint32_t recogniser, uint32_t offset, JCC_THRESHOLDS, const uint32_t *sizes,
                  size_t sizes_len, const double *prices, size_t prices_len, uint8_t *sheet,
                  size_t sheet_len);

/* The same feeds and look. The result is the judged bar's ordinal, from 1 in the order of the history;
 * or 0 where the offset is beyond the history, the feeds are refused, or the look is: jcc_look tells
 * which. The sheet is as jcc_look leaves it. */
uint32_t jcc_look_ordinal(uint32_t recogniser, uint32_t offset, JCC_THRESHOLDS,
                          const uint32_t *sizes, size_t sizes_len, const double *prices,
                          size_t prices_len, uint8_t *sheet, size_t sheet_len);

/* The same feeds with a tally.
 *
 *   counts      the tally: JCC_COUNTS numbers. As the box is fresh it adds up only if all are 0; any
 *               other number among them is refusal 5. Afterwards they are the counts of the history,
 *               and those of each recogniser add up to the number of bars. Missing numbers at the end
 *               read as 0 and are not written; numbers past the last count stay as they are.
 *
 * The result is 0, or the refusal that one feed of all the bars with that tally gets: 3 to 6. A
 * refusal leaves sheet and counts as they are. */
uint32_t jcc_tally(JCC_THRESHOLDS, const uint32_t *sizes, size_t sizes_len, const double *prices,
                   size_t prices_len, uint8_t *sheet, size_t sheet_len, uint32_t *counts,
                   size_t counts_len);

/* ---- terms of the trading day */

/* A fresh layer takes one-minute bars in runs and puts them together to bars of terms of 5, 15 or 60
 * minutes, which get rows as in a feed when they end: when a bar of a later term comes, or at a close.
 *
 *   minutes     of a term: 5, 15 or 60
 *   hours       two numbers to a window of the day: the minute from which, and the minute up to which
 *               without that one. One to four windows, which rise and are disjoint, up to 1,440. A
 *               missing last number reads as 0.
 *   stamps      a bar's minute, counted from a fixed midnight: each above the one before it, and in the
 *               hours
 *   prices      as for jcc_feed, a bar for each stamp
 *   sizes       the calls to the layer, one after the other: 0 is a close, any other number a run of so
 *               many of the bars that are left, or of those that are left if there are fewer, be it
 *               none. A run's bars are passed over whether it is refused or not.
 *   sheet       each call's rows stand behind those of the calls before it, and it is lent the sheet
 *               from there on. A run is checked as a feed of as many bars as it has minute bars, a close
 *               as a feed of one, so that each needs that room. Bytes past the rows stay as they are.
 *   answers     each call's answer: how many rows it filled, or JCC_CALL_REFUSED plus its refusal, which
 *               leaves the layer as it is and fills no row: 3, 12, 4, 5, 6, and bar by bar 10 and 11.
 *               Where there are fewer places than calls the calls are made all the same; places past the
 *               last call stay as they are.
 *
 * The result is 0, or the refusal of the layer's making, 3 or 12: then no call is made, and sheet and
 * answers stay as they are. */
uint32_t jcc_terms(JCC_THRESHOLDS, uint32_t minutes, const uint32_t *hours, size_t hours_len,
                   const uint32_t *stamps, size_t stamps_len, const double *prices,
                   size_t prices_len, const uint32_t *sizes, size_t sizes_len, uint8_t *sheet,
                   size_t sheet_len, uint32_t *answers, size_t answers_len);

#ifdef __cplusplus
}
#endif

#endif
