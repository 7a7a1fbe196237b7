/* Measures the stack that each call needs: it is made on a stack of its own that was filled before, and the deepest byte that changed is
 * looked for. What an empty function changes is taken off. `make -C examples stack` runs it. */
#include "../include/label.h"

#include <stdio.h>
#include <string.h>
#include <ucontext.h>

enum { SIDE = 64, CELLS = SIDE * SIDE, WORDS = SIDE + 1 + 5 * SIDE * SIDE, STACK = 1 << 16 };

static const size_t flat[2] = {SIDE, SIDE}, deep[4] = {4, 4, 4, SIDE};
static uint8_t ones[81], left_zero[9] = {1, 1, 1, 0, 1, 0, 1, 1, 1};
static uint32_t words[WORDS], out32[CELLS], sizes[CELLS];
static uint64_t record[LABEL_RECORD_WORDS], answer[LABEL_ANSWER_WORDS];
static uint8_t cells8[CELLS], out8[CELLS];
static uint16_t cells16[CELLS], out16[CELLS];
static int16_t cellsi[CELLS];
static float cellsf[CELLS];
static uint32_t result;

static ucontext_t back, call;
static unsigned char stack[STACK];

#define WITH record, LABEL_RECORD_WORDS, words, WORDS
#define ANSWER answer, LABEL_ANSWER_WORDS

static void empty(void) { result = 0; }
static void open_flat(void) { result = label_open(flat, 2, ones, 9, words, WORDS, record, LABEL_RECORD_WORDS); }
static void open_split(void) { result = label_open(flat, 2, left_zero, 9, words, WORDS, record, LABEL_RECORD_WORDS); }
static void open_deep(void) { result = label_open(deep, 4, ones, 81, words, WORDS, record, LABEL_RECORD_WORDS); }
static void feed_u8(void) { result = label_feed_u8(WITH, SIDE, cells8, CELLS, ANSWER); }
static void feed_u16(void) { result = label_feed_u16(WITH, SIDE, cells16, CELLS, ANSWER); }
static void feed_i16(void) { result = label_feed_i16(WITH, SIDE, cellsi, CELLS, ANSWER); }
static void feed_f32(void) { result = label_feed_f32(WITH, SIDE, cellsf, CELLS, ANSWER); }
static void widen(void) { result = label_widen(WITH, ones, 9, ANSWER); }
static void widen_deep(void) { result = label_widen(WITH, ones, 81, ANSWER); }
static void read_u8(void) { result = label_read_u8(WITH, out8, CELLS, ANSWER); }
static void read_u16(void) { result = label_read_u16(WITH, out16, CELLS, ANSWER); }
static void read_u32(void) { result = label_read_u32(WITH, out32, CELLS, ANSWER); }
static void size_call(void) { result = label_sizes(WITH, sizes, (size_t)answer[0], ANSWER); }

#define FRAME(name, c, n, cells, out)                                                                                \
    static void name(void)                                                                                           \
    {                                                                                                                \
        result = label_frame_##c##_##n(flat, 2, ones, 9, words, WORDS, cells, CELLS, out, CELLS, 3, ANSWER);         \
    }
FRAME(frame_u8_u8, u8, u8, cells8, out8)
FRAME(frame_u8_u32, u8, u32, cells8, out32)
FRAME(frame_u16_u16, u16, u16, cells16, out16)
FRAME(frame_i16_u32, i16, u32, cellsi, out32)
FRAME(frame_f32_u32, f32, u32, cellsf, out32)

/* The bytes of the stack that f changes. */
static size_t used(void (*f)(void))
{
    size_t i = 0;

    memset(stack, 0xa5, sizeof stack);
    getcontext(&call);
    call.uc_stack.ss_sp = stack;
    call.uc_stack.ss_size = sizeof stack;
    call.uc_link = &back;
    makecontext(&call, f, 0);
    swapcontext(&back, &call);
    while (i < sizeof stack && stack[i] == 0xa5)
        i++;
    return sizeof stack - i;
}

static void measure(const char *name, void (*f)(void))
{
    size_t none = used(empty), all = used(f);

    printf("%-16s %5lu bytes, result %u\n", name, (unsigned long)(all - none), (unsigned)result);
}

int main(void)
{
    int i;

    memset(ones, 1, sizeof ones);
    for (i = 0; i < CELLS; i++) {
        cells8[i] = (uint8_t)(i % 7 % 3 != 0);
        cells16[i] = cells8[i];
        cellsi[i] = (int16_t)cells8[i];
        cellsf[i] = cells8[i];
    }
    measure("label_open", open_flat);
    measure("label_feed_u8", feed_u8);
    measure("label_widen", widen);
    measure("label_read_u8", read_u8);
    measure("label_read_u16", read_u16);
    measure("label_read_u32", read_u32);
    measure("label_sizes", size_call);
    open_flat();
    measure("label_feed_u16", feed_u16);
    open_flat();
    measure("label_feed_i16", feed_i16);
    open_flat();
    measure("label_feed_f32", feed_f32);
    open_split();
    measure("left byte zero", feed_u8);
    measure("label_open, 4", open_deep);
    measure("rank 4, feed", feed_u8);
    measure("rank 4, widen", widen_deep);
    measure("frame_u8_u8", frame_u8_u8);
    measure("frame_u8_u32", frame_u8_u32);
    measure("frame_u16_u16", frame_u16_u16);
    measure("frame_i16_u32", frame_i16_u32);
    measure("frame_f32_u32", frame_f32_u32);
    return 0;
}
