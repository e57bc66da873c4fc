/* Prints what the recognisers find at each bar of a small history, then shows each refusal.
 *
 *   gcc -O2 -Wall -Wextra -Werror -std=c11 example.c -L../../target/staticlib -lrecognisers -o ../../target/jcc_example && ../../target/jcc_example
 */
#include "jcc.h"

#include <assert.h>
#include <float.h>
#include <math.h>
#include <stdio.h>
#include <stdlib.h>

static const char *const LABELS[JCC_LABELS] = {
    "其他",       "任意",     "满足",     "锤子",       "上吊",       "看涨吞没",
    "看跌吞没",   "上升三法", "下降三法", "5K",         "6K",         "7K",
    "8K",         "9K",       "启明星",   "黄昏星",     "中间十字",   "下跌分手",
    "上升分手",   "箭在弦",   "风中烛",   "看空",       "看多",       "底部",
    "顶部",       "实体标准", "常规",     "加强",       "半加强",     "蜻蜓十字线",
    "墓碑十字线", "长腿十字线", "十字线", "北方",       "看涨反击线", "看跌反击线",
    "向上跳空",   "向下跳空",
};

struct bar {
    double open, close, high, low;
};

/* On a little-endian machine the bars are the bytes that the library takes. */
static_assert(sizeof(struct bar) == JCC_BAR_BYTES, "a bar is four doubles");
static_assert(FLT_RADIX == 2 && DBL_MANT_DIG == 53, "a double is IEEE 754 binary64");
#if defined(__BYTE_ORDER__) && __BYTE_ORDER__ != __ORDER_LITTLE_ENDIAN__
#error "write each price's bits little-endian first"
#endif

/* The declaration has the type that is expected: another one does not compile. */
static uint32_t (*const typed)(uint32_t, uint32_t, double, uint32_t, uint32_t, uint32_t, uint32_t,
                               uint32_t, uint32_t, uint32_t, double, uint32_t, uint32_t, uint32_t,
                               uint32_t, const uint8_t *, size_t) = jcc_label;

static uint32_t label(uint32_t recogniser, uint32_t offset, const struct bar *bars, size_t count)
{
    return jcc_label(recogniser, offset, JCC_STANDARD, (const uint8_t *)bars,
                     count * JCC_BAR_BYTES);
}

static void expect(const char *name, uint32_t result, uint32_t expected)
{
    if (result != expected) {
        fprintf(stderr, "%s: %u instead of %u\n", name, (unsigned)result, (unsigned)expected);
        exit(EXIT_FAILURE);
    }
}

static void print_refusals(void)
{
    static const struct bar one = {5.0, 6.0, 7.0, 4.0};
    const uint8_t *bytes = (const uint8_t *)&one;
    const size_t too_many = (size_t)JCC_MOST_BARS + 1;
    struct bar *many = calloc(too_many, sizeof *many);

    if (many == NULL) {
        perror("calloc");
        exit(EXIT_FAILURE);
    }
    expect("recogniser 18", label(18, 1, &one, 1), JCC_REFUSED + JCC_REFUSAL_RECOGNISER);
    expect("offset 0", label(1, 0, &one, 1), JCC_REFUSED + JCC_REFUSAL_OFFSET);
    expect("a NaN threshold",
           typed(1, 1, (double)NAN, 500, 50, 100, 50, 500, 2, 300, 2.0, 500, 100, 100, 100, bytes,
                 32),
           JCC_REFUSED + JCC_REFUSAL_THRESHOLD);
    expect("th13 above its limit",
           typed(1, 1, 2.0, 500, 50, 100, 50, 500, 2, 300, 2.0, 500, 100, JCC_MOST_TENTHS + 1, 100,
                 bytes, 32),
           JCC_REFUSED + JCC_REFUSAL_THRESHOLD);
    expect("31 bytes", typed(1, 1, JCC_STANDARD, bytes, 31), JCC_REFUSED + JCC_REFUSAL_BYTES);
    expect("1,000,001 bars", label(1, 1, many, too_many), JCC_REFUSED + JCC_REFUSAL_HISTORY);
    expect("1,000,000 bars", label(13, 1, many, JCC_MOST_BARS), 1);
    expect("no bars", label(9, 1, &one, 0), 1);
    free(many);
    puts("each refusal is as expected");
}

int main(void)
{
    static const struct bar bars[] = {
        {20.0, 16.0, 21.0, 15.0}, {17.0, 13.0, 18.0, 12.0}, {14.0, 10.0, 15.0, 9.0},
        {8.0, 16.0, 16.5, 7.5},   {12.0, 11.0, 15.0, 9.5},
    };

    for (size_t count = 1; count <= sizeof bars / sizeof *bars; count++) {
        for (uint32_t recogniser = 0; recogniser < JCC_RECOGNISERS; recogniser++) {
            uint32_t result = label(recogniser, 1, bars, count);
            if (result >= JCC_REFUSED) {
                fprintf(stderr, "refusal %u\n", (unsigned)(result - JCC_REFUSED));
                return EXIT_FAILURE;
            }
            if (result / 256 != 0)
                printf("bar %zu: recogniser %u, %s/%s\n", count, (unsigned)recogniser,
                       LABELS[result / 256], LABELS[result % 256]);
        }
    }
    print_refusals();
    return EXIT_SUCCESS;
}
