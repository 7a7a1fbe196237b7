/* A scan that goes on with more neighbours: under the cross a bud that touches its mother cell at a corner counts as a clump of its own.
 * Half way through, label_widen takes nine ones in place of the cross: the lines scanned so far are united again, and the scan goes on.
 * `make -C examples` builds and runs it. */
#include "../include/label.h"

#include <inttypes.h>
#include <stdio.h>

enum { LINES = 8, WIDTH = 16, HALF = LINES / 2 };

/* The memory: lines + 1 + 5 x lines x half the width. A wider structure needs no more, as its left byte is nonzero too. */
enum { WORDS = LINES + 1 + 5 * LINES * ((WIDTH + 1) / 2) };

/* Two mother cells. The bud of the first comes before half of the lines are scanned, that of the second after. */
static const char *const picture[LINES] = {
    "..###...........",
    ".#####....###...",
    ".#####...#####..",
    "......##.#####..",
    "......##..###...",
    ".............##.",
    ".............##.",
    "................",
};

static const uint8_t cross[9] = {0, 1, 0, 1, 1, 1, 0, 1, 0};
static const uint8_t nine_ones[9] = {1, 1, 1, 1, 1, 1, 1, 1, 1};

static uint32_t words[WORDS];
static uint64_t record[LABEL_RECORD_WORDS];
static uint64_t answer[LABEL_ANSWER_WORDS];

/* Whether the call was accepted; if not, says which it was, and its number. */
static int accepted(const char *call, uint32_t result)
{
    if (result != LABEL_OK)
        printf("%s: refused with %" PRIu32 "\n", call, result);
    return result == LABEL_OK;
}

/* The groups so far, which are the clumps, by the answer of a feed or of a structure change. */
static uint64_t groups(void)
{
    return answer[1] - answer[2];
}

/* Feeds the lines from one up to another, and prints the clumps after each. */
static int scan(int from, int to)
{
    uint8_t cells[WIDTH];
    int line, x;

    for (line = from; line < to; line++) {
        for (x = 0; x < WIDTH; x++)
            cells[x] = picture[line][x] == '#';
        if (!accepted("label_feed_u8", label_feed_u8(record, LABEL_RECORD_WORDS, words, WORDS, 1, cells, WIDTH,
                                                     answer, LABEL_ANSWER_WORDS)))
            return 0;
        printf("%s  clumps %" PRIu64 "\n", picture[line], groups());
    }
    return 1;
}

static uint32_t widen(const uint8_t *structure)
{
    return label_widen(record, LABEL_RECORD_WORDS, words, WORDS, structure, 9, answer, LABEL_ANSWER_WORDS);
}

static int print_sizes(void)
{
    uint32_t sizes[LINES * WIDTH];
    uint64_t i;

    if (!accepted("label_sizes", label_sizes(record, LABEL_RECORD_WORDS, words, WORDS, sizes, (size_t)groups(),
                                             answer, LABEL_ANSWER_WORDS)))
        return 0;
    printf("\n%" PRIu64 " clumps, of sizes", answer[0]);
    for (i = 0; i < answer[0]; i++)
        printf(" %" PRIu32, sizes[i]);
    printf("\n");
    return 1;
}

int main(void)
{
    static const size_t shape[2] = {LINES, WIDTH};
    uint32_t result;

    if (label_record_words() != LABEL_RECORD_WORDS || label_words_needed(LINES, WIDTH, cross[3]) != WORDS) {
        printf("the header is not the library's\n");
        return 1;
    }
    if (!accepted("label_open", label_open(shape, 2, cross, sizeof cross, words, WORDS, record, LABEL_RECORD_WORDS)))
        return 1;
    if (!scan(0, HALF))
        return 1;

    printf("\nunder the cross: %" PRIu64 " clumps\n", groups());
    if (!accepted("label_widen", widen(nine_ones)))
        return 1;
    printf("under nine ones: %" PRIu64 " clumps\n\n", groups());

    if (!scan(HALF, LINES) || !print_sizes())
        return 1;

    /* The cross has fewer neighbours than nine ones, so there is no way back, and everything stays as it was. */
    result = widen(cross);
    printf("back to the cross: refused with %" PRIu32 "\n", result);
    return result != LABEL_NOT_WIDER;
}
