/* Scans a frame line by line, as a sensor delivers it: opens a session, feeds one line at a time, and prints what is known after each;
 * then the number of each cell, the size of each group, and a call that is refused. `make -C examples` builds and runs it. */
#include "../include/label.h"

#include <inttypes.h>
#include <stdio.h>

enum { LINES = 6, WIDTH = 12 };

/* The memory: lines + 1 + 5 x lines x half the width, as the structure's left byte is nonzero. */
enum { WORDS = LINES + 1 + 5 * LINES * ((WIDTH + 1) / 2) };

static const char *const picture[LINES] = {
    "##....##...#",
    ".#....#....#",
    ".######...##",
    "...........#",
    "..##..##....",
    "..##...##..#",
};

static uint32_t words[WORDS];
static uint64_t record[LABEL_RECORD_WORDS];
static uint16_t numbers[LINES * WIDTH];
static uint32_t sizes[LINES * WIDTH];

static int refused(const char *call, uint32_t result)
{
    printf("%s: refused with %" PRIu32 "\n", call, result);
    return 1;
}

static void print_numbers(void)
{
    int line, x;

    for (line = 0; line < LINES; line++) {
        for (x = 0; x < WIDTH; x++)
            printf(x ? " %" PRIu16 : "%" PRIu16, numbers[line * WIDTH + x]);
        printf("\n");
    }
}

/* Feeds a line, and prints the answer. */
static uint32_t scan_line(int line, uint64_t *answer)
{
    uint8_t cells[WIDTH];
    uint32_t result;
    int x;

    for (x = 0; x < WIDTH; x++)
        cells[x] = picture[line][x] == '#';
    result = label_feed_u8(record, LABEL_RECORD_WORDS, words, WORDS, 1, cells, WIDTH, answer, LABEL_ANSWER_WORDS);
    if (result == LABEL_OK)
        printf("%s  lines %" PRIu64 "  runs %" PRIu64 "  joins %" PRIu64 "  groups %" PRIu64 "  cells %" PRIu64 "\n",
               picture[line], answer[0], answer[1], answer[2], answer[1] - answer[2], answer[3]);
    return result;
}

int main(void)
{
    static const size_t shape[2] = {LINES, WIDTH};
    static const uint8_t cross[9] = {0, 1, 0, 1, 1, 1, 0, 1, 0};
    uint64_t answer[LABEL_ANSWER_WORDS] = {0};
    uint32_t result;
    uint64_t i;
    int line;

    if (label_record_words() != LABEL_RECORD_WORDS || label_words_needed(LINES, WIDTH, cross[3]) != WORDS) {
        printf("the header is not the library's\n");
        return 1;
    }
    result = label_open(shape, 2, cross, sizeof cross, words, WORDS, record, LABEL_RECORD_WORDS);
    if (result != LABEL_OK)
        return refused("label_open", result);

    for (line = 0; line < LINES; line++) {
        result = scan_line(line, answer);
        if (result != LABEL_OK)
            return refused("label_feed_u8", result);
    }

    result = label_read_u16(record, LABEL_RECORD_WORDS, words, WORDS, numbers, LINES * WIDTH, answer, LABEL_ANSWER_WORDS);
    if (result != LABEL_OK)
        return refused("label_read_u16", result);
    printf("\n%" PRIu64 " groups\n", answer[0]);
    print_numbers();

    /* answer[0] is n, which is as many entries as the sizes must have. */
    result = label_sizes(record, LABEL_RECORD_WORDS, words, WORDS, sizes, (size_t)answer[0], answer, LABEL_ANSWER_WORDS);
    if (result != LABEL_OK)
        return refused("label_sizes", result);
    printf("\nsizes");
    for (i = 0; i < answer[0]; i++)
        printf(" %" PRIu32, sizes[i]);
    printf("\n\n");

    /* All lines are fed, so one more is refused, and everything stays as it was. */
    result = scan_line(0, answer);
    if (result != LABEL_LINES)
        return 1;
    refused("one line too many", result);
    return 0;
}
