/* Connected-component labelling of frames of rank 1 to 4: the C interface of the library liblabel_c.a.
 *
 * A frame is scanned line by line: label_open, then label_feed_T for the lines as they come, label_read_T for the number of each
 * cell and label_sizes for the cells of each number, as often as wanted and between feeds too. label_widen lets a scan go on with more
 * neighbours. label_frame_C_N labels a whole frame in one call. docs/C.md says more, with the memory and the stack that is needed.
 *
 * Every call may be given any values: a call that cannot be done returns a number above 0 (enum label_result) and says here what it
 * left as it was. Nothing is read or written beyond the counts. The caller answers for this alone:
 *   - a pointer is good for as many elements as the count after it says, aligned for its type; what is not const may be written to;
 *   - no two arguments overlap, except that two arguments that are both const may. With a count of 0 a pointer is not used;
 *   - nothing else writes to the arguments while a call runs.
 */
#ifndef LABEL_H
#define LABEL_H

#include <stddef.h>
#include <stdint.h>

#ifdef __cplusplus
extern "C" {
#endif

/* What a call returns. */
enum label_result {
    LABEL_OK = 0,                /* accepted */
    LABEL_RANK = 1,              /* the rank is 0 or above 4 */
    LABEL_STRUCTURE_LENGTH = 2,  /* the structure has not 3^rank bytes */
    LABEL_ZERO_DIMENSION = 3,    /* a leading dimension is 0 */
    LABEL_TOO_LARGE = 4,         /* the width is 2,147,483,647 or more, or lines, or lines x width, are 4,294,967,293 or more */
    LABEL_MEMORY = 5,            /* fewer words than needed */
    LABEL_UNSOUND = 6,           /* the record is damaged, or goes with other words */
    LABEL_LINES = 7,             /* k is above the lines left */
    LABEL_CELLS = 8,             /* the cells are not k x width; of a whole frame, not lines x width */
    LABEL_LENGTH = 9,            /* the output has not lines x width places, or the sizes not n */
    LABEL_KIND = 10,             /* n is above the largest number that the output's kind holds */
    LABEL_LOPSIDED = 12,         /* bytes i and 3^rank - 1 - i of the structure are not both zero or both nonzero, for some i */
    LABEL_NOT_WIDER = 19,        /* the left bytes differ in being zero, or a byte nonzero in the old structure is zero in the new */
    LABEL_SHORT = 100            /* the record has fewer than LABEL_RECORD_WORDS words, or the answer fewer than LABEL_ANSWER_WORDS */
};

/* The words of a record, and the least words of an answer. An accepted call writes the first words of the answer, as is said at each,
 * and leaves the others as they were. */
#define LABEL_RECORD_WORDS 90
#define LABEL_ANSWER_WORDS 8

/* The words of memory that a frame needs: lines + 1 + 5 x lines x h, where h is half the width, rounded up, or the whole width
 * where the structure's left byte is 0. `lines` is the product of the leading dimensions (1 for rank 1), `left` is the left byte: the one
 * in the middle of the structure but one, structure[(3^rank - 1) / 2 - 1]. It is right for every frame that label_open takes; for
 * sizes that label_open refuses with LABEL_TOO_LARGE it gives UINT64_MAX, which no memory has. */
static inline uint64_t label_words_needed(uint64_t lines, uint64_t width, int left)
{
    uint64_t h = left ? width / 2 + width % 2 : width;

    if (width >= UINT64_C(2147483647) || lines >= UINT64_C(4294967293))
        return UINT64_MAX;
    if (width != 0 && lines > UINT64_C(4294967292) / width)
        return UINT64_MAX;
    return lines + 1 + 5 * lines * h;
}

/* LABEL_RECORD_WORDS, as the library has it. A program compares the two at its start where header and library could differ. */
uint64_t label_record_words(void);

/* Opens a session.
 * Takes the shape (its last dimension is the width, the product of the others the number of lines), the structure (3^rank bytes in C
 * order, symmetric about the centre: only zero or nonzero matters) and the words of memory, which may hold anything.
 * Accepted: word 0 of `words` is written, and the first LABEL_RECORD_WORDS words of `record`.
 * Returns 0, 100, 1, 2, 12, 3, 4 or 5, looked for in this order; unless it is 0, nothing is written. */
uint32_t label_open(const size_t *shape, size_t rank,
                    const uint8_t *structure, size_t structure_bytes,
                    uint32_t *words, size_t word_count,
                    uint64_t *record, size_t record_words);

/* Feeds the next k lines of the frame, with their k x width cells. A cell counts by whether it is zero; of float +0.0 and -0.0
 * are zero, and NaN is not.
 * Accepted: answer[0] is lines fed, answer[1] runs, answer[2] joins, answer[3] nonzero cells, all so far, and the groups so far are
 * answer[1] - answer[2]. The record is written, and of the words the new line starts, runs, parents and sizes.
 * Returns 0, 100, 6, 7 or 8, looked for in this order; unless it is 0, nothing is written. */
uint32_t label_feed_u8(uint64_t *record, size_t record_words,
                       uint32_t *words, size_t word_count,
                       size_t k, const uint8_t *cells, size_t cell_count,
                       uint64_t *answer, size_t answer_words);
uint32_t label_feed_u16(uint64_t *record, size_t record_words,
                        uint32_t *words, size_t word_count,
                        size_t k, const uint16_t *cells, size_t cell_count,
                        uint64_t *answer, size_t answer_words);
uint32_t label_feed_i16(uint64_t *record, size_t record_words,
                        uint32_t *words, size_t word_count,
                        size_t k, const int16_t *cells, size_t cell_count,
                        uint64_t *answer, size_t answer_words);
uint32_t label_feed_f32(uint64_t *record, size_t record_words,
                        uint32_t *words, size_t word_count,
                        size_t k, const float *cells, size_t cell_count,
                        uint64_t *answer, size_t answer_words);

/* Goes on under a wider structure: the stored lines are united again under it, from the first line, whatever grouping the words held. From
 * then on the session answers as if it had been opened with this structure.
 * Takes the new structure, as label_open does. A byte that is nonzero in the old one, the centre's too, must be nonzero in the new one, and
 * the left byte zero in both or in neither: so the runs, and the words needed, stay as they are.
 * Accepted: the answer as of a feed, its joins counted from the first line. The record is written, and of the words the parents and sizes
 * of the stored runs; names stand. Feeds may follow.
 * Returns 0, 100, 6, 2, 12 or 19, looked for in this order; unless it is 0, nothing is written. */
uint32_t label_widen(uint64_t *record, size_t record_words,
                     uint32_t *words, size_t word_count,
                     const uint8_t *structure, size_t structure_bytes,
                     uint64_t *answer, size_t answer_words);

/* Writes each cell's number to `out`, which has lines x width places: 0 for a zero cell and for a line not yet fed, else its group's
 * number. Groups are numbered 1 to n by their first cells in C order.
 * Accepted: answer[0] is n, answer[1] runs, answer[2] joins, answer[3] nonzero cells, of the lines fed. Every place of `out` is written,
 * and of the words the names of the runs. The session goes on: a reading may be repeated, and feeds may follow.
 * Returns 0, 100, 6, 9 or 10, looked for in this order; unless it is 0, nothing is written. */
uint32_t label_read_u8(const uint64_t *record, size_t record_words,
                       uint32_t *words, size_t word_count,
                       uint8_t *out, size_t out_count,
                       uint64_t *answer, size_t answer_words);
uint32_t label_read_u16(const uint64_t *record, size_t record_words,
                        uint32_t *words, size_t word_count,
                        uint16_t *out, size_t out_count,
                        uint64_t *answer, size_t answer_words);
uint32_t label_read_u32(const uint64_t *record, size_t record_words,
                        uint32_t *words, size_t word_count,
                        uint32_t *out, size_t out_count,
                        uint64_t *answer, size_t answer_words);

/* Writes the cell count of each number, 1 to n in turn, to `sizes`, which has n entries: n is runs - joins of the answer before. The
 * counts are kept as lines are fed, and copied here.
 * Accepted: as a reading, with `sizes` in place of `out`.
 * Returns 0, 100, 6 or 9, looked for in this order; unless it is 0, nothing is written. */
uint32_t label_sizes(const uint64_t *record, size_t record_words,
                     uint32_t *words, size_t word_count,
                     uint32_t *sizes, size_t size_count,
                     uint64_t *answer, size_t answer_words);

/* Labels a whole frame: opens, feeds all lines and reads, without a record. `blocks` is in how many blocks the lines are taken, 0 as
 * 1; it changes no answer.
 * Accepted: the answer and `out` as of a reading; the words as those calls leave them.
 * Returns 0, 100, 1, 2, 12, 3, 4, 5, 8, 9 or 10, looked for in this order. With 10 the words are as after feeding, and `out` and `answer`
 * stand; with any other number but 0 nothing is written. */
uint32_t label_frame_u8_u8(const size_t *shape, size_t rank,
                           const uint8_t *structure, size_t structure_bytes,
                           uint32_t *words, size_t word_count,
                           const uint8_t *cells, size_t cell_count,
                           uint8_t *out, size_t out_count,
                           size_t blocks, uint64_t *answer, size_t answer_words);
uint32_t label_frame_u8_u16(const size_t *shape, size_t rank,
                            const uint8_t *structure, size_t structure_bytes,
                            uint32_t *words, size_t word_count,
                            const uint8_t *cells, size_t cell_count,
                            uint16_t *out, size_t out_count,
                            size_t blocks, uint64_t *answer, size_t answer_words);
uint32_t label_frame_u8_u32(const size_t *shape, size_t rank,
                            const uint8_t *structure, size_t structure_bytes,
                            uint32_t *words, size_t word_count,
                            const uint8_t *cells, size_t cell_count,
                            uint32_t *out, size_t out_count,
                            size_t blocks, uint64_t *answer, size_t answer_words);
uint32_t label_frame_u16_u8(const size_t *shape, size_t rank,
                            const uint8_t *structure, size_t structure_bytes,
                            uint32_t *words, size_t word_count,
                            const uint16_t *cells, size_t cell_count,
                            uint8_t *out, size_t out_count,
                            size_t blocks, uint64_t *answer, size_t answer_words);
uint32_t label_frame_u16_u16(const size_t *shape, size_t rank,
                             const uint8_t *structure, size_t structure_bytes,
                             uint32_t *words, size_t word_count,
                             const uint16_t *cells, size_t cell_count,
                             uint16_t *out, size_t out_count,
                             size_t blocks, uint64_t *answer, size_t answer_words);
uint32_t label_frame_u16_u32(const size_t *shape, size_t rank,
                             const uint8_t *structure, size_t structure_bytes,
                             uint32_t *words, size_t word_count,
                             const uint16_t *cells, size_t cell_count,
                             uint32_t *out, size_t out_count,
                             size_t blocks, uint64_t *answer, size_t answer_words);
uint32_t label_frame_i16_u8(const size_t *shape, size_t rank,
                            const uint8_t *structure, size_t structure_bytes,
                            uint32_t *words, size_t word_count,
                            const int16_t *cells, size_t cell_count,
                            uint8_t *out, size_t out_count,
                            size_t blocks, uint64_t *answer, size_t answer_words);
uint32_t label_frame_i16_u16(const size_t *shape, size_t rank,
                             const uint8_t *structure, size_t structure_bytes,
                             uint32_t *words, size_t word_count,
                             const int16_t *cells, size_t cell_count,
                             uint16_t *out, size_t out_count,
                             size_t blocks, uint64_t *answer, size_t answer_words);
uint32_t label_frame_i16_u32(const size_t *shape, size_t rank,
                             const uint8_t *structure, size_t structure_bytes,
                             uint32_t *words, size_t word_count,
                             const int16_t *cells, size_t cell_count,
                             uint32_t *out, size_t out_count,
                             size_t blocks, uint64_t *answer, size_t answer_words);
uint32_t label_frame_f32_u8(const size_t *shape, size_t rank,
                            const uint8_t *structure, size_t structure_bytes,
                            uint32_t *words, size_t word_count,
                            const float *cells, size_t cell_count,
                            uint8_t *out, size_t out_count,
                            size_t blocks, uint64_t *answer, size_t answer_words);
uint32_t label_frame_f32_u16(const size_t *shape, size_t rank,
                             const uint8_t *structure, size_t structure_bytes,
                             uint32_t *words, size_t word_count,
                             const float *cells, size_t cell_count,
                             uint16_t *out, size_t out_count,
                             size_t blocks, uint64_t *answer, size_t answer_words);
uint32_t label_frame_f32_u32(const size_t *shape, size_t rank,
                             const uint8_t *structure, size_t structure_bytes,
                             uint32_t *words, size_t word_count,
                             const float *cells, size_t cell_count,
                             uint32_t *out, size_t out_count,
                             size_t blocks, uint64_t *answer, size_t answer_words);

#ifdef __cplusplus
}
#endif

#endif
