/* DNG opcode lists, run on image samples.
 *
 * Every function answers for every argument: a number out of its range, a malformed list or a buffer that is too short
 * is an answer, and nothing is touched that the answer does not name. What each does is proved of its code.
 *
 * Link with the archive that `tools/archive` writes (x86-64). size_t has 64 bits.
 *
 * A buffer crosses as its first element and its length in elements. The pointer is not null and is aligned for its
 * type, also where the length is 0. No two buffers of a call overlap, and no other thread touches them until it
 * returns; what is `const` is never written.
 *
 * A preview leaves out the opcodes whose flag bit 1 says that a preview may skip them. The list is read whole all the
 * same, after 1 is tested; then the flagged entries are dropped, and forms, names, totals and verdict speak of what is
 * left. `entry` and `opcode` still count the whole list. `preview` is a bool, 0 or 1 as C and C++ make it; of any other
 * byte the code looks at bit 0 alone. It is new in `rolbhunga_settings`, whose size is as before, and an argument of
 * the four functions that take no settings: a caller that was compiled with an older header must be compiled again.
 *
 * Answers of the functions over a list (the field `number`); those of the search and of black level stand with them
 *     0  done
 *     1  a number is out of its range: width, height, stride and period at most 65,536; planes 1 to 8; x0, y0,
 *        full_width and full_height at most 16,777,216; of a row: its number at most 16,842,751, and at most
 *        width * planes samples
 *        (2 is divided into 20 to 25: it is never given, and no other answer has its number)
 *    20  the list ends inside its count or inside an entry's header
 *    21  the list has more than 4,096 entries
 *    22  the body of an entry is longer than the rest of the list
 *    23  the body of an entry ends inside a field of fixed size
 *    24  a count or dimension breaks its limit, or what it counts does not fit the body
 *    25  the degree of a polynomial is above 8
 *        20 to 25: the list is malformed. `entry` entries were read whole before that; `offset` is the byte, from the
 *        list's first, of the field that could not be read or accepted: of 22 the length, of several counts the first.
 *        It is at most the list's length
 *     3  the form does not take this list
 *     4  the skip buffer `names` is shorter than the skipped opcodes
 *     5  the repair `opcode` marks more positions than `marks` has entries; nothing of it is written
 *        (6 is withdrawn: it is never given, and no other answer has its number)
 *   100  `work` has fewer entries than the bytes have whole samples (the functions over a list and bytes alone;
 *        tested before all others)
 * They are tested in this order, 20 to 25 by which is met first while the list is read, 5 opcode by opcode. On 1, 20 to
 * 25, 3, 4 and 100 the samples are as they were; on 5 they are as after the opcodes before. Numbers that are not named
 * here are 0.
 */
#ifndef ROLBHUNGA_H
#define ROLBHUNGA_H

#include <stdbool.h>
#include <stddef.h>
#include <stdint.h>

#ifdef __cplusplus
extern "C" {
#endif

#define ROLBHUNGA_DONE 0u
#define ROLBHUNGA_RANGE 1u
/* 2 is divided */
#define ROLBHUNGA_ENDS 20u
#define ROLBHUNGA_TOO_MANY 21u
#define ROLBHUNGA_TOO_LONG 22u
#define ROLBHUNGA_INSIDE 23u
#define ROLBHUNGA_COUNT 24u
#define ROLBHUNGA_DEGREE 25u
#define ROLBHUNGA_NOT_TAKEN 3u
#define ROLBHUNGA_NAMES 4u
#define ROLBHUNGA_MARKS 5u
/* 6 is withdrawn */
#define ROLBHUNGA_WORK 100u

/* Whether a number says that the list is malformed. */
#define ROLBHUNGA_IS_MALFORMED(n) ((uint32_t)(n) - ROLBHUNGA_ENDS <= ROLBHUNGA_DEGREE - ROLBHUNGA_ENDS)

/* A list has at most so many opcodes, so that a skip buffer of so many bytes is never too short. */
#define ROLBHUNGA_MAX_OPCODES 4096u

/* The window that a run changes: width by height pixels of `planes` samples each, rows `stride` pixels apart, its
 * corner at (x0, y0) of an image of full_width by full_height. Sample (x, y, plane) stands at (y * stride + x) * planes
 * + plane. There may be fewer samples than the window needs. */
typedef struct rolbhunga_window {
    size_t width;
    size_t height;
    size_t planes;
    size_t stride;
    size_t x0;
    size_t y0;
    size_t full_width;
    size_t full_height;
} rolbhunga_window;

/* The window of one row. */
typedef struct rolbhunga_row_window {
    size_t width;
    size_t planes;
    size_t x0;
    size_t full_width;
    size_t full_height;
} rolbhunga_row_window;

/* period: the distance of the neighbours that a repair takes the mean of, 2 for a Bayer image; 0 counts as 1.
 * scale: what a sample is multiplied by to reach the list's 16-bit values, 1 for stored values, 65535 for values from 0
 * to 1.
 * preview: whether the run is a preview. */
typedef struct rolbhunga_settings {
    size_t period;
    float scale;
    bool preview;
} rolbhunga_settings;

/* names: how many bytes of the skip buffer were written. repaired, left: the marked positions of all repairs that got a
 * new value, and those that had no sound neighbour. None of them tells whether the frame is whole: rolbhunga_whole
 * does. */
typedef struct rolbhunga_numbers {
    uint32_t number;
    size_t entry;
    size_t offset;
    size_t opcode;
    size_t names;
    uint64_t repaired;
    uint64_t left;
} rolbhunga_numbers;

/* skipped: how many opcodes of the list, or of what a preview leaves of it, the f32 run would name. It is a count and
 * no verdict; a row has none. */
typedef struct rolbhunga_row_numbers {
    uint32_t number;
    size_t entry;
    size_t offset;
    size_t skipped;
} rolbhunga_row_numbers;

/* Reads a list, big-endian as in a DNG file: 0 or 20 to 25. */
rolbhunga_numbers rolbhunga_read(const uint8_t *list, size_t list_len);

/* Runs a list on f32 samples.
 * marks: the scratch for a repair, which is 4 bytes a marked position and nothing else, as long as the list's largest
 * repair needs; width * height entries are always enough. It holds only zeros at every return.
 * names: on 0 it starts with one byte for each skipped opcode in list order, its id, 0 for one that is not known; it is
 * otherwise as it was.
 * The run skips WarpRectilinear, WarpFisheye, TrimBounds, unknown opcodes, and a MapTable with no entries. */
rolbhunga_numbers rolbhunga_run_f32(const uint8_t *list, size_t list_len, float *samples, size_t samples_len, rolbhunga_window window,
                                    rolbhunga_settings settings, uint32_t *marks, size_t marks_len, uint8_t *names,
                                    size_t names_len);

/* The same on u16 samples, for lists of MapTable, opcodes that are not applied, and at most one repair. An empty
 * MapTable has no name here. */
rolbhunga_numbers rolbhunga_run_u16(const uint8_t *list, size_t list_len, uint16_t *samples, size_t samples_len, rolbhunga_window window,
                                    size_t period, bool preview, uint32_t *marks, size_t marks_len, uint8_t *names,
                                    size_t names_len);

/* Runs a list on one row, the row y of the image, as the f32 run would; for lists with no repair and no empty MapTable.
 * Answers 0, 1, 20 to 25 or 3. */
rolbhunga_row_numbers rolbhunga_run_row(const uint8_t *list, size_t list_len, float *row, size_t row_len, rolbhunga_row_window window,
                                        size_t y, float scale, bool preview);

/* Whether a frame is whole: the run over it answered 0 (`number`), and every opcode that has not the flag bit 0,
 * "optional", had its effect. An opcode that is skipped, a MapTable with no entries, and a FixVignetteRadial whose
 * distance to the farthest corner is not above 0 and finite had none; an opcode whose region selects no sample had it,
 * and so had a repair that left positions as they were (`left` tells of them). In a preview the opcodes that are left
 * count, and no others.
 * full_width, full_height and preview are those of the run, in either form; a vignette goes by the full size alone,
 * whatever the window. A caller by rows asks once, when all rows are done, with 0. Any number but 0 is not whole; with
 * 0 and a list that is malformed, which no run answers with 0, the entries before the malformed one count. */
bool rolbhunga_whole(const uint8_t *list, size_t list_len, uint32_t full_width, uint32_t full_height, bool preview,
                     uint32_t number);

/* The three runs on samples that stand in bytes, little-endian. `work` is typed room, an entry for each whole sample;
 * it holds only zeros at every return. Bytes left over after the last whole sample stay. On 1, 20 to 25, 3, 4 and 100
 * the bytes are as they were; otherwise every f32 sample is written back, and a NaN is then the pattern 7fc00000 hex,
 * whatever it was before. */
rolbhunga_numbers rolbhunga_bytes_f32(const uint8_t *list, size_t list_len, uint8_t *bytes, size_t bytes_len, rolbhunga_window window,
                                      rolbhunga_settings settings, float *work, size_t work_len, uint32_t *marks, size_t marks_len,
                                      uint8_t *names, size_t names_len);

rolbhunga_numbers rolbhunga_bytes_u16(const uint8_t *list, size_t list_len, uint8_t *bytes, size_t bytes_len, rolbhunga_window window,
                                      size_t period, bool preview, uint16_t *work, size_t work_len, uint32_t *marks,
                                      size_t marks_len, uint8_t *names, size_t names_len);

rolbhunga_row_numbers rolbhunga_bytes_row(const uint8_t *list, size_t list_len, uint8_t *bytes, size_t bytes_len,
                                          rolbhunga_row_window window, size_t y, float scale, bool preview, float *work,
                                          size_t work_len);

/* ---- a list inside a DNG file
 *
 * Answers of rolbhunga_find (the field `number`): 1 is tested first, then 30; 31 to 33 as they are met in reading
 * order.
 *     0  found: the list is the `length` bytes of the file from `start` on
 *     1  `which` is not 1, 2 or 3
 *    30  not a TIFF file: not II or MM, 42 and the offset of a first directory
 *    31  an offset or a size lies outside the file: of a directory that is gone to, of the list, or of the offsets that
 *        an entry has of SubIFDs
 *    32  more than 64 directories: each one gone to counts, also where it is gone to again; the 65th is not looked at
 *    33  no such list, after all directories
 * `start` and `length` are 0 in all but 0. */
#define ROLBHUNGA_NOT_TIFF 30u
#define ROLBHUNGA_OUTSIDE 31u
#define ROLBHUNGA_DIRECTORIES 32u
#define ROLBHUNGA_MISSING 33u

typedef struct rolbhunga_found {
    uint32_t number;
    size_t start;
    size_t length;
} rolbhunga_found;

/* Finds OpcodeList1, OpcodeList2 or OpcodeList3 (`which`: 1, 2, 3) in a DNG file, in either byte order; the file may be
 * any bytes. The first one is taken, in the order of a directory's own entries, its SubIFDs, the next directory; it may
 * have no bytes. A call takes about 17 KB of stack. */
rolbhunga_found rolbhunga_find(const uint8_t *file, size_t file_len, uint32_t which);

/* ---- black level before list 2: from each sample the black of its image position is taken, and the rest is scaled
 *
 * Answers of the four functions below (what they return), tested in this order:
 *     0  done
 *     1  a number is out of its range: width and height at most 65,536; planes 1 to 8; x0 and y0 at most 16,777,216
 *    60  the pattern's height or width is 0, or a table has fewer than planes * height * width entries
 *    61  input or output has fewer than width * height * planes samples
 *   100  `work` or `made` has fewer entries than the frame has samples (the functions over bytes alone; here it is
 *        tested after all others, and goes by the frame, not by the bytes)
 * On all but 0 the output is as it was; what stands behind the frame's samples always is. */
#define ROLBHUNGA_TABLES 60u
#define ROLBHUNGA_SAMPLES 61u

/* width by height pixels of `planes` samples each, rows without gaps, the corner at (x0, y0) of the image. */
typedef struct rolbhunga_field {
    size_t width;
    size_t height;
    size_t planes;
    size_t x0;
    size_t y0;
} rolbhunga_field;

/* The pattern of black and scale, which starts at the image's corner and repeats. */
typedef struct rolbhunga_pattern {
    size_t height;
    size_t width;
} rolbhunga_pattern;

/* Sample v of plane k at image row y and image column x becomes (v - black) * scale, at least 0: a NaN becomes 0, and a
 * zero is +0.
 * input, out: two buffers that do not overlap; each may be longer than the frame. Only `out` is written.
 * blacks, scales: a table for each plane, one behind another, each row after row; the entry is that of row y % height,
 * column x % width.
 * rows, columns: deltas of image rows and image columns, added to black in this order; an empty list adds nothing, a
 * missing entry 0. Each operation is rounded to float.
 * A part of a frame, with its own x0 and y0, becomes what it becomes in the frame. */
uint32_t rolbhunga_black_f32(const float *input, size_t input_len, float *out, size_t out_len, rolbhunga_field field,
                             rolbhunga_pattern pattern, const float *blacks, size_t blacks_len, const float *scales,
                             size_t scales_len, const float *rows, size_t rows_len, const float *columns,
                             size_t columns_len);

/* The same from u16 samples, widened. */
uint32_t rolbhunga_black_u16(const uint16_t *input, size_t input_len, float *out, size_t out_len, rolbhunga_field field,
                             rolbhunga_pattern pattern, const float *blacks, size_t blacks_len, const float *scales,
                             size_t scales_len, const float *rows, size_t rows_len, const float *columns,
                             size_t columns_len);

/* The same on samples that stand in bytes, little-endian, the output as f32. `work` and `made` are typed room, an entry
 * for each of the frame's samples; both hold only zeros at every return. Bytes behind the frame's samples stay, whole
 * samples or not. */
uint32_t rolbhunga_bytes_black_f32(const uint8_t *input, size_t input_len, uint8_t *out, size_t out_len,
                                   rolbhunga_field field, rolbhunga_pattern pattern, const float *blacks,
                                   size_t blacks_len, const float *scales, size_t scales_len, const float *rows,
                                   size_t rows_len, const float *columns, size_t columns_len, float *work,
                                   size_t work_len, float *made, size_t made_len);

uint32_t rolbhunga_bytes_black_u16(const uint8_t *input, size_t input_len, uint8_t *out, size_t out_len,
                                   rolbhunga_field field, rolbhunga_pattern pattern, const float *blacks,
                                   size_t blacks_len, const float *scales, size_t scales_len, const float *rows,
                                   size_t rows_len, const float *columns, size_t columns_len, uint16_t *work,
                                   size_t work_len, float *made, size_t made_len);

#ifdef __cplusplus
}
#endif

#endif
