/* Tests of the C interface itself: refusals with their numbers and with nothing written, empty slices, words past a record and an
 * answer, sizes after each line and in damaged words, structure changes with all that they write, and each kind on one small frame. It
 * prints how many checks there were, and each that failed. */
#include "../include/label.h"

#include <stdio.h>
#include <string.h>

enum { W = 3, L = 3, STRIDE = 5, WORDS = L + 1 + STRIDE * L * 2, RECORD = LABEL_RECORD_WORDS, ANSWER = LABEL_ANSWER_WORDS };

/* Where a run's parent is, and its fifth word: its group's cell count, if the run is a root. */
#define PARENT(run) (L + 1 + STRIDE * (run) + 2)
#define SIZE(run) (L + 1 + STRIDE * (run) + 4)

static const size_t shape[2] = {L, W};
static const uint8_t cross[9] = {0, 1, 0, 1, 1, 1, 0, 1, 0}, lopsided[9] = {0, 1, 0, 1, 1, 1, 0, 0, 0};
static const uint8_t nine_ones[9] = {1, 1, 1, 1, 1, 1, 1, 1, 1};
static const uint8_t cells[L * W] = {1, 0, 1, 1, 0, 1, 1, 1, 1};
/* Each run touches the next at a corner alone. */
static const uint8_t corners[L * W] = {1, 0, 0, 0, 1, 0, 0, 0, 1};

static int checks, failures;

static void check(int held, const char *what, int line)
{
    checks++;
    if (!held) {
        failures++;
        printf("failed, line %d: %s\n", line, what);
    }
}

#define CHECK(e) check((e) != 0, #e, __LINE__)

/* A session with its memory, two words more of each than are needed. */
struct session {
    uint32_t words[WORDS + 2];
    uint64_t record[RECORD + 2];
    uint64_t answer[ANSWER + 2];
};

static void fill(struct session *s)
{
    memset(s, 0xa5, sizeof *s);
}

static uint32_t open_session(struct session *s)
{
    fill(s);
    return label_open(shape, 2, cross, 9, s->words, WORDS, s->record, RECORD);
}

static uint32_t feed(struct session *s, size_t k, size_t from, size_t count)
{
    return label_feed_u8(s->record, RECORD, s->words, WORDS, k, cells + from, count, s->answer, ANSWER);
}

static uint32_t widen(struct session *s, const uint8_t *structure, size_t bytes)
{
    return label_widen(s->record, RECORD, s->words, WORDS, structure, bytes, s->answer, ANSWER);
}

static int same(const struct session *a, const struct session *b)
{
    return memcmp(a, b, sizeof *a) == 0;
}

static void test_open(void)
{
    struct session s, before;
    static const size_t dims[5] = {1, 1, 1, 1, 1}, none[2] = {0, 3};
    static const size_t edge[2] = {4294967293u, 1}, below[2] = {4294967292u, 1}, wrap[3] = {(size_t)-1, (size_t)-1, 2};
    uint8_t ones[81];

    memset(ones, 1, sizeof ones);
    fill(&s);
    before = s;
    CHECK(label_open(shape, 2, cross, 9, s.words, WORDS, s.record, RECORD - 1) == LABEL_SHORT);
    CHECK(label_open(shape, 2, cross, 9, s.words, WORDS, NULL, 0) == LABEL_SHORT);
    CHECK(label_open(dims, 5, ones, 81, s.words, WORDS, s.record, RECORD) == LABEL_RANK);
    CHECK(label_open(NULL, 0, NULL, 0, s.words, WORDS, s.record, RECORD) == LABEL_RANK);
    CHECK(label_open(NULL, 0, NULL, 0, NULL, 0, NULL, 0) == LABEL_SHORT);
    CHECK(label_open(shape, 2, cross, 8, s.words, WORDS, s.record, RECORD) == LABEL_STRUCTURE_LENGTH);
    CHECK(label_open(none, 2, lopsided, 8, s.words, WORDS, s.record, RECORD) == LABEL_STRUCTURE_LENGTH);
    CHECK(label_open(none, 2, lopsided, 9, s.words, WORDS, s.record, RECORD) == LABEL_LOPSIDED);
    CHECK(label_open(edge, 2, lopsided, 9, s.words, 0, s.record, RECORD) == LABEL_LOPSIDED);
    CHECK(label_open(none, 2, cross, 9, s.words, WORDS, s.record, RECORD) == LABEL_ZERO_DIMENSION);
    CHECK(label_open(edge, 2, cross, 9, s.words, WORDS, s.record, RECORD) == LABEL_TOO_LARGE);
    CHECK(label_open(below, 2, cross, 9, s.words, WORDS, s.record, RECORD) == LABEL_MEMORY);
    CHECK(label_open(wrap, 3, ones, 27, s.words, WORDS, s.record, RECORD) == LABEL_TOO_LARGE);
    CHECK(label_open(shape, 2, cross, 9, s.words, WORDS - 1, s.record, RECORD) == LABEL_MEMORY);
    CHECK(label_open(shape, 2, cross, 9, NULL, 0, s.record, RECORD) == LABEL_MEMORY);
    CHECK(same(&s, &before));
    CHECK(label_open(dims, 4, ones, 81, s.words, WORDS, s.record, RECORD) == LABEL_OK);
    ones[0] = 255;
    CHECK(label_open(dims, 4, ones, 81, s.words, WORDS, s.record, RECORD) == LABEL_OK);
    CHECK(open_session(&s) == LABEL_OK);
    CHECK(s.words[0] == 0 && memcmp(s.words + 1, before.words + 1, sizeof s.words - sizeof s.words[0]) == 0);
    CHECK(memcmp(s.record + RECORD, before.record + RECORD, 2 * sizeof s.record[0]) == 0);
    CHECK(memcmp(s.answer, before.answer, sizeof s.answer) == 0);
}

static void test_session(void)
{
    static const uint8_t expect[L * W] = {1, 0, 1, 1, 0, 1, 1, 1, 1};
    static const uint64_t runs[L] = {2, 4, 5}, joins[L] = {0, 2, 4}, total[L] = {2, 4, 7};
    static const uint32_t of[L][2] = {{1, 1}, {2, 2}, {7, 77}};
    struct session s, before;
    uint8_t out[L * W];
    uint32_t sizes[2];
    size_t line, i, n;

    CHECK(open_session(&s) == LABEL_OK);
    for (line = 0; line < L; line++) {
        before = s;
        CHECK(feed(&s, 1, line * W, W) == LABEL_OK);
        CHECK(s.answer[0] == line + 1 && s.answer[1] == runs[line] && s.answer[2] == joins[line] && s.answer[3] == total[line]);
        CHECK(memcmp(s.answer + 4, before.answer + 4, (ANSWER + 2 - 4) * sizeof s.answer[0]) == 0);
        CHECK(memcmp(s.record + RECORD, before.record + RECORD, 2 * sizeof s.record[0]) == 0);
        CHECK(label_read_u8(s.record, RECORD, s.words, WORDS, out, L * W, s.answer, ANSWER) == LABEL_OK);
        CHECK(s.answer[0] == runs[line] - joins[line] && s.answer[1] == runs[line] && s.answer[2] == joins[line]);
        CHECK(s.answer[3] == total[line] && s.record[RECORD - 1] == total[line]);
        for (i = (line + 1) * W; i < L * W; i++)
            CHECK(out[i] == 0);
        /* The sizes after this line, in the words of the roots, which are the first runs, and copied from there. */
        n = (size_t)(runs[line] - joins[line]);
        sizes[0] = sizes[1] = 77;
        before = s;
        CHECK(label_sizes(s.record, RECORD, s.words, WORDS, sizes, n, s.answer, ANSWER) == LABEL_OK);
        CHECK(memcmp(sizes, of[line], sizeof sizes) == 0 && same(&s, &before));
        for (i = 0; i < n; i++)
            CHECK(s.words[SIZE(i)] == of[line][i]);
    }
    CHECK(memcmp(out, expect, sizeof out) == 0);
}

/* Two lines fed, with two groups of two cells: roots 0 and 1, and runs 2 and 3, which are none. */
static void open_two_lines(struct session *s)
{
    CHECK(open_session(s) == LABEL_OK && feed(s, 2, 0, 2 * W) == LABEL_OK);
    CHECK(s->words[SIZE(0)] == 2 && s->words[SIZE(1)] == 2);
}

/* A feed of nothing, a reading and a size call, all with this result, and a structure change if it is a refusal, which changes nothing. */
static void check_calls(struct session *s, uint32_t result)
{
    struct session before = *s;
    uint8_t out[L * W] = {77};
    uint32_t sizes[2] = {77, 77};

    CHECK(feed(s, 0, 0, 0) == result);
    CHECK(label_read_u8(s->record, RECORD, s->words, WORDS, out, L * W, s->answer, ANSWER) == result);
    CHECK(label_sizes(s->record, RECORD, s->words, WORDS, sizes, 2, s->answer, ANSWER) == result);
    CHECK(result == LABEL_OK || widen(s, nine_ones, 9) == result);
    CHECK(result == LABEL_OK || (same(s, &before) && out[0] == 77 && sizes[0] == 77 && sizes[1] == 77));
    CHECK(result != LABEL_OK || (sizes[0] == s->words[SIZE(0)] && sizes[1] == s->words[SIZE(1)]));
}

/* The fifth words of roots must add up to the nonzero cells, and not only modulo 2^32. Those of other runs are free. */
static void test_size_words(void)
{
    struct session s;
    uint32_t size;

    open_two_lines(&s);
    s.words[SIZE(1)] = 3;
    check_calls(&s, LABEL_UNSOUND);
    s.words[SIZE(1)] = 0;
    check_calls(&s, LABEL_UNSOUND);
    s.words[SIZE(0)] = s.words[SIZE(1)] = 2 + UINT32_C(0x80000000);
    check_calls(&s, LABEL_UNSOUND);
    s.words[SIZE(0)] = UINT32_MAX;
    s.words[SIZE(1)] = 5;
    check_calls(&s, LABEL_UNSOUND);
    open_two_lines(&s);
    s.words[SIZE(2)] = UINT32_MAX;
    s.words[SIZE(3)] = 0;
    check_calls(&s, LABEL_OK);
    /* Sizes that add up, though not by groups, are taken as they stand: the next line joins the groups, and adds its three cells. */
    s.words[SIZE(0)] = 4;
    s.words[SIZE(1)] = 0;
    check_calls(&s, LABEL_OK);
    CHECK(feed(&s, 1, 2 * W, W) == LABEL_OK);
    CHECK(label_sizes(s.record, RECORD, s.words, WORDS, &size, 1, s.answer, ANSWER) == LABEL_OK);
    CHECK(size == 7 && s.words[SIZE(0)] == 7 && s.answer[0] == 1 && s.answer[3] == 7);
}

static void test_refusals(void)
{
    struct session s, before;
    uint8_t out[L * W + 1];
    uint32_t sizes[2] = {11, 12};

    CHECK(open_session(&s) == LABEL_OK && feed(&s, 2, 0, 2 * W) == LABEL_OK);
    memset(out, 77, sizeof out);
    before = s;
    CHECK(label_feed_u8(s.record, RECORD - 1, s.words, WORDS, 1, cells, W, s.answer, ANSWER) == LABEL_SHORT);
    CHECK(label_feed_u8(s.record, RECORD, s.words, WORDS, 1, cells, W, s.answer, ANSWER - 1) == LABEL_SHORT);
    CHECK(label_feed_u8(NULL, 0, NULL, 0, 0, NULL, 0, NULL, 0) == LABEL_SHORT);
    CHECK(label_feed_u8(s.record, RECORD, s.words, WORDS - 1, 1, cells, W, s.answer, ANSWER) == LABEL_UNSOUND);
    CHECK(label_feed_u8(s.record, RECORD, NULL, 0, 0, NULL, 0, s.answer, ANSWER) == LABEL_UNSOUND);
    CHECK(feed(&s, 2, 0, 2 * W) == LABEL_LINES);
    CHECK(feed(&s, (size_t)-1, 0, 0) == LABEL_LINES);
    CHECK(feed(&s, 1, 0, W - 1) == LABEL_CELLS);
    CHECK(feed(&s, 0, 0, 1) == LABEL_CELLS);
    CHECK(label_read_u8(s.record, RECORD - 1, s.words, WORDS, out, L * W, s.answer, ANSWER) == LABEL_SHORT);
    CHECK(label_read_u16(s.record, RECORD, s.words, WORDS, NULL, 0, s.answer, ANSWER - 1) == LABEL_SHORT);
    CHECK(label_read_u8(s.record, RECORD, s.words, WORDS, out, L * W + 1, s.answer, ANSWER) == LABEL_LENGTH);
    CHECK(label_read_u32(s.record, RECORD, s.words, WORDS, NULL, 0, s.answer, ANSWER) == LABEL_LENGTH);
    CHECK(label_sizes(s.record, RECORD, s.words, WORDS, sizes, 1, s.answer, ANSWER) == LABEL_LENGTH);
    CHECK(label_sizes(s.record, RECORD, s.words, WORDS, sizes, 2, s.answer, 0) == LABEL_SHORT);
    CHECK(same(&s, &before) && out[0] == 77 && out[L * W] == 77 && sizes[0] == 11 && sizes[1] == 12);
    /* A feed of no lines is accepted, and changes nothing but the answer. */
    CHECK(label_feed_u8(s.record, RECORD, s.words, WORDS, 0, NULL, 0, s.answer, ANSWER) == LABEL_OK);
    CHECK(same(&s, &before));
}

/* Two lines of corners fed under the cross, and read, so that both runs have names. */
static void open_corners(struct session *s)
{
    uint8_t out[L * W];

    CHECK(open_session(s) == LABEL_OK);
    CHECK(label_feed_u8(s->record, RECORD, s->words, WORDS, 2, corners, 2 * W, s->answer, ANSWER) == LABEL_OK);
    CHECK(label_read_u8(s->record, RECORD, s->words, WORDS, out, L * W, s->answer, ANSWER) == LABEL_OK);
    CHECK(s->answer[0] == 2 && out[0] == 1 && out[W + 1] == 2);
}

/* Structure changes that are refused, each with its number, and nothing is written. */
static void test_widen_refused(void)
{
    static const uint8_t no_left[9] = {1, 1, 1, 0, 1, 0, 1, 1, 1}, no_arm[9] = {1, 0, 1, 1, 1, 1, 1, 0, 1};
    static const uint8_t no_centre[9] = {1, 1, 1, 1, 0, 1, 1, 1, 1}, ten[10] = {1, 1, 1, 1, 1, 1, 1, 1, 1, 1};
    static const size_t one_line[2] = {1, W};
    struct session s, before;

    open_corners(&s);
    before = s;
    CHECK(label_widen(s.record, RECORD - 1, s.words, WORDS, nine_ones, 9, s.answer, ANSWER) == LABEL_SHORT);
    CHECK(label_widen(s.record, RECORD, s.words, WORDS, nine_ones, 9, s.answer, ANSWER - 1) == LABEL_SHORT);
    CHECK(label_widen(s.record, RECORD, NULL, 0, nine_ones, 8, NULL, 0) == LABEL_SHORT);
    CHECK(label_widen(NULL, 0, NULL, 0, NULL, 0, NULL, 0) == LABEL_SHORT);
    CHECK(label_widen(s.record, RECORD, s.words, WORDS - 1, nine_ones, 9, s.answer, ANSWER) == LABEL_UNSOUND);
    CHECK(label_widen(s.record, RECORD, NULL, 0, NULL, 0, s.answer, ANSWER) == LABEL_UNSOUND);
    CHECK(widen(&s, nine_ones, 8) == LABEL_STRUCTURE_LENGTH);
    CHECK(widen(&s, ten, 10) == LABEL_STRUCTURE_LENGTH);
    CHECK(widen(&s, NULL, 0) == LABEL_STRUCTURE_LENGTH);
    CHECK(widen(&s, lopsided, 8) == LABEL_STRUCTURE_LENGTH);
    CHECK(widen(&s, lopsided, 9) == LABEL_LOPSIDED);
    CHECK(widen(&s, no_left, 9) == LABEL_NOT_WIDER);
    CHECK(widen(&s, no_arm, 9) == LABEL_NOT_WIDER);
    CHECK(widen(&s, no_centre, 9) == LABEL_NOT_WIDER);
    CHECK(same(&s, &before));
    /* A left byte that comes is refused as one that goes is. */
    fill(&s);
    CHECK(label_open(one_line, 2, no_left, 9, s.words, WORDS, s.record, RECORD) == LABEL_OK);
    before = s;
    CHECK(widen(&s, nine_ones, 9) == LABEL_NOT_WIDER && same(&s, &before));
}

/* What an accepted structure change may write: the answer's first words, the record's structure and joins, and of the words the parents and
 * fifth words of the stored runs. All else is as it was. */
static void check_widened(const struct session *before, const struct session *s, const uint8_t *structure, uint64_t joins)
{
    struct session want = *before;
    size_t i, runs = (size_t)before->record[87];

    for (i = 0; i < 81; i++)
        want.record[5 + i] = i < 9 ? structure[i] : 0;
    want.record[88] = joins;
    memcpy(want.answer, want.record + 86, 4 * sizeof want.answer[0]);
    for (i = 0; i < runs; i++) {
        want.words[PARENT(i)] = s->words[PARENT(i)];
        want.words[SIZE(i)] = s->words[SIZE(i)];
        CHECK(s->words[PARENT(i)] <= i);
    }
    CHECK(same(s, &want));
}

/* A session that goes on: the cross parts what nine ones join, then another line is fed, and the values of the bytes change once more. */
static void test_widen(void)
{
    static const uint8_t others[9] = {255, 1, 2, 3, 4, 5, 6, 7, 1};
    struct session s, before;
    uint8_t out[L * W];
    uint32_t size = 0;

    open_corners(&s);
    before = s;
    CHECK(widen(&s, nine_ones, 9) == LABEL_OK);
    check_widened(&before, &s, nine_ones, 1);
    CHECK(s.answer[0] == 2 && s.answer[1] == 2 && s.answer[2] == 1 && s.answer[3] == 2);
    CHECK(s.words[PARENT(0)] == 0 && s.words[PARENT(1)] == 0 && s.words[SIZE(0)] == 2);
    CHECK(label_feed_u8(s.record, RECORD, s.words, WORDS, 1, corners + 2 * W, W, s.answer, ANSWER) == LABEL_OK);
    CHECK(s.answer[0] == 3 && s.answer[1] == 3 && s.answer[2] == 2 && s.answer[3] == 3);
    before = s;
    CHECK(widen(&s, others, 9) == LABEL_OK);
    check_widened(&before, &s, others, 2);
    before = s;
    CHECK(widen(&s, cross, 9) == LABEL_NOT_WIDER && same(&s, &before));
    CHECK(label_sizes(s.record, RECORD, s.words, WORDS, &size, 1, s.answer, ANSWER) == LABEL_OK && size == 3);
    CHECK(label_read_u8(s.record, RECORD, s.words, WORDS, out, L * W, s.answer, ANSWER) == LABEL_OK);
    CHECK(s.answer[0] == 1 && memcmp(out, corners, sizeof out) == 0);
}

/* Before the first line nothing but the record and the answer is written. A grouping of another origin is dropped, under any structure. */
static void test_widen_held(void)
{
    struct session s, before;

    CHECK(open_session(&s) == LABEL_OK);
    before = s;
    CHECK(widen(&s, nine_ones, 9) == LABEL_OK);
    check_widened(&before, &s, nine_ones, 0);
    CHECK(label_feed_u8(s.record, RECORD, s.words, WORDS, L, corners, L * W, s.answer, ANSWER) == LABEL_OK);
    CHECK(s.answer[0] == 3 && s.answer[1] == 3 && s.answer[2] == 2);
    open_two_lines(&s);
    s.words[PARENT(1)] = 0;
    s.words[SIZE(0)] = 4;
    s.record[88] = 3;
    CHECK(feed(&s, 0, 0, 0) == LABEL_OK && s.answer[2] == 3);
    before = s;
    CHECK(widen(&s, cross, 9) == LABEL_OK);
    check_widened(&before, &s, cross, 2);
    CHECK(s.words[SIZE(0)] == 2 && s.words[SIZE(1)] == 2 && s.words[PARENT(1)] == 1);
    CHECK(s.words[PARENT(2)] == 0 && s.words[PARENT(3)] == 1);
}

/* Every word of the record set to what no record has, in turn: always 6, and nothing is written. */
static void test_damage(void)
{
    struct session s, before;
    uint8_t out[L * W] = {0};
    uint32_t sizes[2] = {0};
    int i;

    for (i = 0; i < RECORD; i++) {
        CHECK(open_session(&s) == LABEL_OK && feed(&s, 2, 0, 2 * W) == LABEL_OK);
        s.record[i] = (uint64_t)1 << 40;
        before = s;
        if (i == 3 || i == 4) {
            /* dimensions past the rank, which nothing looks at */
            CHECK(feed(&s, 0, 0, 0) == LABEL_OK);
            continue;
        }
        CHECK(feed(&s, 0, 0, 0) == LABEL_UNSOUND);
        CHECK(label_read_u8(s.record, RECORD, s.words, WORDS, out, L * W, s.answer, ANSWER) == LABEL_UNSOUND);
        CHECK(label_sizes(s.record, RECORD, s.words, WORDS, sizes, 2, s.answer, ANSWER) == LABEL_UNSOUND);
        CHECK(widen(&s, nine_ones, 9) == LABEL_UNSOUND);
        CHECK(same(&s, &before));
    }
    /* A structure word of 256 is none of a byte's, and is not cut to 0; a rank of 5 is none of a record's. */
    CHECK(open_session(&s) == LABEL_OK);
    s.record[5] = 256;
    CHECK(feed(&s, 0, 0, 0) == LABEL_UNSOUND);
    CHECK(open_session(&s) == LABEL_OK);
    s.record[0] = 5;
    CHECK(feed(&s, 0, 0, 0) == LABEL_UNSOUND);
    /* The record's words from 5 on are its structure: with one arm less it is lopsided, with another nonzero value it is not. */
    CHECK(open_session(&s) == LABEL_OK);
    s.record[5 + 7] = 0;
    CHECK(feed(&s, 0, 0, 0) == LABEL_UNSOUND);
    s.record[5 + 7] = 255;
    CHECK(feed(&s, 0, 0, 0) == LABEL_OK);
    s.record[0] = 5;
    /* 100 comes before 6. */
    CHECK(label_feed_u8(s.record, RECORD, s.words, WORDS, 0, NULL, 0, s.answer, ANSWER - 1) == LABEL_SHORT);
}

/* Each kind of cell into each kind of number, by sessions and in one call. */
static const uint16_t cells16[L * W] = {1, 0, 256, 65535, 0, 7, 1, 1, 1};
static const int16_t cellsi[L * W] = {-1, 0, -32768, 1, 0, 256, 1, -1, 1};
static const float cellsf[L * W] = {1.0f, 0.0f, 0.5f, -2.0f, -0.0f, 1e-30f, 3.0f, 1.0f, 1.0f};

#define FRAME(cell, number, values, type)                                                                            \
    do {                                                                                                             \
        struct session s;                                                                                            \
        type out[L * W];                                                                                             \
        size_t blocks, i;                                                                                            \
        for (blocks = 0; blocks < 5; blocks++) {                                                                     \
            fill(&s);                                                                                                \
            memset(out, 0xa5, sizeof out);                                                                           \
            CHECK(label_frame_##cell##_##number(shape, 2, cross, 9, s.words, WORDS, values, L * W, out, L * W,       \
                                                blocks, s.answer, ANSWER) == LABEL_OK);                              \
            CHECK(s.answer[0] == 1 && s.answer[1] == 5 && s.answer[2] == 4 && s.answer[3] == 7);                     \
            CHECK(s.words[SIZE(0)] == 7);                                                                            \
            for (i = 0; i < L * W; i++)                                                                              \
                CHECK(out[i] == cells[i]);                                                                           \
        }                                                                                                            \
        CHECK(label_frame_##cell##_##number(shape, 2, cross, 9, s.words, WORDS, values, L * W, out, L * W, 1,        \
                                            s.answer, ANSWER - 1) == LABEL_SHORT);                                   \
        CHECK(label_frame_##cell##_##number(shape, 2, lopsided, 9, s.words, 0, values, L * W - 1, out, L * W, 1,     \
                                            s.answer, ANSWER) == LABEL_LOPSIDED);                                    \
        CHECK(label_frame_##cell##_##number(shape, 2, cross, 9, s.words, WORDS, values, L * W - 1, out, L * W, 1,    \
                                            s.answer, ANSWER) == LABEL_CELLS);                                       \
        CHECK(label_frame_##cell##_##number(shape, 2, cross, 9, s.words, WORDS, values, L * W, out, L * W - 1, 1,    \
                                            s.answer, ANSWER) == LABEL_LENGTH);                                      \
    } while (0)

#define SESSION(cell, number, values, type)                                                                          \
    do {                                                                                                             \
        struct session s;                                                                                            \
        type out[L * W];                                                                                             \
        size_t i;                                                                                                    \
        CHECK(open_session(&s) == LABEL_OK);                                                                         \
        CHECK(label_feed_##cell(s.record, RECORD, s.words, WORDS, L, values, L * W, s.answer, ANSWER) == LABEL_OK);  \
        CHECK(s.answer[0] == L && s.answer[1] == 5 && s.answer[2] == 4 && s.answer[3] == 7);                         \
        CHECK(label_read_##number(s.record, RECORD, s.words, WORDS, out, L * W, s.answer, ANSWER) == LABEL_OK);      \
        for (i = 0; i < L * W; i++)                                                                                  \
            CHECK(out[i] == cells[i]);                                                                               \
    } while (0)

#define KINDS(test)                                                                                                  \
    do {                                                                                                             \
        test(u8, u8, cells, uint8_t);                                                                                \
        test(u8, u16, cells, uint16_t);                                                                              \
        test(u8, u32, cells, uint32_t);                                                                              \
        test(u16, u8, cells16, uint8_t);                                                                             \
        test(u16, u16, cells16, uint16_t);                                                                           \
        test(u16, u32, cells16, uint32_t);                                                                           \
        test(i16, u8, cellsi, uint8_t);                                                                              \
        test(i16, u16, cellsi, uint16_t);                                                                            \
        test(i16, u32, cellsi, uint32_t);                                                                            \
        test(f32, u8, cellsf, uint8_t);                                                                              \
        test(f32, u16, cellsf, uint16_t);                                                                            \
        test(f32, u32, cellsf, uint32_t);                                                                            \
    } while (0)

/* 255 lone cells in one line are the most that a u8 holds; with 256 the number is 10, and output and answer stand. */
static void test_kind(void)
{
    enum { WIDE = 511, WORDS_WIDE = 2 + STRIDE * 256 };
    static const uint8_t ones[3] = {1, 1, 1};
    static uint8_t line[WIDE], out[WIDE];
    static uint32_t memory[WORDS_WIDE];
    uint64_t answer[ANSWER] = {5, 6, 7, 8, 9, 10, 11, 12};
    size_t width = 509, i;

    for (i = 0; i < WIDE; i++)
        line[i] = i % 2 == 0;
    CHECK(label_frame_u8_u8(&width, 1, ones, 3, memory, WORDS_WIDE, line, width, out, width, 1, answer, ANSWER) == LABEL_OK);
    CHECK(answer[0] == 255 && answer[1] == 255 && answer[2] == 0 && answer[3] == 255 && out[508] == 255);
    CHECK(answer[4] == 9 && answer[7] == 12);
    width = WIDE;
    memset(out, 9, sizeof out);
    CHECK(label_frame_u8_u8(&width, 1, ones, 3, memory, WORDS_WIDE, line, width, out, width, 1, answer, ANSWER) == LABEL_KIND);
    CHECK(answer[0] == 255 && out[0] == 9 && out[WIDE - 1] == 9);
}

/* What label_open says with so many words, for lines of a width, with the left byte zero or not. */
static uint32_t opened_with(size_t lines, size_t width, int left, size_t count)
{
    static uint32_t words[500];
    size_t dims[2];
    uint8_t structure[9] = {0, 1, 0, 0, 1, 0, 0, 1, 0};
    uint64_t record[RECORD];

    dims[0] = lines;
    dims[1] = width;
    structure[3] = structure[5] = left != 0;
    return label_open(dims, 2, structure, 9, words, count, record, RECORD);
}

/* The header's function is held to the library: enough words and no fewer, and too large exactly where that is refused. */
static void test_words_needed(void)
{
    static const uint64_t sizes[] = {0, 1, 2, 3, 65536, 2147483646u, 2147483647u, 4294967292u, 4294967293u, UINT64_MAX};
    enum { SIZES = sizeof sizes / sizeof sizes[0] };
    size_t lines, width;
    int left;

    for (lines = 1; lines < 10; lines++)
        for (width = 0; width < 10; width++)
            for (left = 0; left < 2; left++) {
                size_t needed = (size_t)label_words_needed(lines, width, left);
                CHECK(opened_with(lines, width, left, needed) == LABEL_OK);
                CHECK(opened_with(lines, width, left, needed - 1) == LABEL_MEMORY);
            }
    for (lines = 1; lines < SIZES; lines++)
        for (width = 0; width < SIZES; width++)
            for (left = 0; left < 2; left++) {
                int large = label_words_needed(sizes[lines], sizes[width], left) == UINT64_MAX;
                CHECK(opened_with(sizes[lines], sizes[width], left, 1) == (uint32_t)(large ? LABEL_TOO_LARGE : LABEL_MEMORY));
            }
    CHECK(label_words_needed(3, 3, 1) == 34);
    CHECK(label_words_needed(1024, 1024, 1) == 2622465);
    CHECK(label_words_needed(1024, 1024, 0) == 5243905);
    CHECK(label_words_needed(1, 0, 1) == 2);
    CHECK(label_words_needed(4294967292u, 1, 0) == UINT64_C(25769803753));
    CHECK(label_words_needed(4294967293u, 0, 1) == UINT64_MAX);
    CHECK(label_words_needed(1, 2147483647u, 1) == UINT64_MAX);
    CHECK(label_words_needed(2147483647u, 3, 1) == UINT64_MAX);
    CHECK(label_words_needed(UINT64_MAX, UINT64_MAX, 0) == UINT64_MAX);
}

int main(void)
{
    CHECK(label_record_words() == RECORD);
    test_open();
    test_session();
    test_size_words();
    test_refusals();
    test_widen_refused();
    test_widen();
    test_widen_held();
    test_damage();
    KINDS(FRAME);
    KINDS(SESSION);
    test_kind();
    test_words_needed();
    printf("%d checks, %d failed\n", checks, failures);
    return failures != 0;
}
