/* Every function of the header, called from C and from C++ (the same text): each argument in its place, each struct laid out alike. */
#include "rolbhunga.h"
#include <stdio.h>
#include <string.h>

static int failed = 0;

static void is(const char *what, unsigned long long got, unsigned long long want) {
    if (got != want) {
        printf("%s: %llu, want %llu\n", what, got, want);
        failed = 1;
    }
}

/* FixBadPixelsConstant with the constant 0, then a WarpFisheye with no body */
static const uint8_t repair[] = {0, 0, 0, 2, 0, 0, 0, 4, 1, 3, 0, 0, 0, 0, 0, 0, 0, 0, 0, 8, 0, 0, 0, 0, 0, 0, 0, 0,
                                 0, 0, 0, 2, 1, 3, 0, 0, 0, 0, 0, 0, 0, 0, 0, 0};

/* FixVignetteRadial with k0 to k4 0, about (0.5, 2^1000), whose square is past every number where there is a height,
 * and 0 where there is none */
static const uint8_t vignette[4 + 16 + 56] = {0, 0, 0, 1, 0, 0, 0, 3, 1, 3, 0, 0, 0, 0, 0, 0, 0, 0, 0, 56,
                                              0, 0, 0, 0, 0, 0, 0, 0, 0, 0, 0, 0, 0, 0, 0, 0, 0, 0, 0, 0,
                                              0, 0, 0, 0, 0, 0, 0, 0, 0, 0, 0, 0, 0, 0, 0, 0, 0, 0, 0, 0,
                                              63, 224, 0, 0, 0, 0, 0, 0, 0x7e, 0x70, 0, 0, 0, 0, 0, 0};

/* MM, 42, a directory at 8 with OpcodeList2, type 7, two bytes in the entry */
static const uint8_t dng[] = {77, 77, 0, 42, 0, 0, 0, 8, 0, 1, 199, 65, 0, 7, 0, 0, 0, 2, 5, 6, 0, 0, 0, 0, 0, 0};

/* Two planes of one pixel at (3, 2), a pattern of one line and two columns: column 1 of each plane's table. */
static void black(void) {
    static const float in[2] = {10.0f, 20.0f}, b[4] = {1.0f, 2.0f, 3.0f, 4.0f}, s[4] = {9.0f, 0.5f, 9.0f, 2.0f},
                       rows[3] = {7.0f, 7.0f, 1.0f}, columns[4] = {7.0f, 7.0f, 7.0f, 3.0f};
    static const uint16_t in16[2] = {10, 20};
    static const uint8_t bytes16[4] = {10, 0, 20, 0};
    float out[3] = {0.0f, 0.0f, 7.0f}, work[2] = {1.0f, 1.0f}, made[2] = {1.0f, 1.0f};
    uint16_t work16[2] = {1, 1};
    uint8_t in_bytes[8], out_bytes[9] = {0, 0, 0, 0, 0, 0, 0, 0, 0xcc};
    rolbhunga_field f = {1, 1, 2, 3, 2};
    rolbhunga_pattern p = {1, 2};
    memcpy(in_bytes, in, sizeof in_bytes);
    is("black f32", rolbhunga_black_f32(in, 2, out, 3, f, p, b, 4, s, 4, rows, 3, columns, 4), ROLBHUNGA_DONE);
    is("black f32 samples", out[0] == 2.0f && out[1] == 24.0f && out[2] == 7.0f, 1);
    is("black u16", rolbhunga_black_u16(in16, 2, out, 3, f, p, b, 4, s, 4, rows, 3, columns, 0), ROLBHUNGA_DONE);
    is("black u16 samples", out[0] == 3.5f && out[1] == 30.0f && out[2] == 7.0f, 1);
    is("black, short table", rolbhunga_black_u16(in16, 2, out, 3, f, p, b, 4, s, 3, rows, 3, columns, 0),
       ROLBHUNGA_TABLES);
    is("black, short input", rolbhunga_black_u16(in16, 1, out, 3, f, p, b, 4, s, 4, rows, 3, columns, 0),
       ROLBHUNGA_SAMPLES);
    is("black, bytes",
       rolbhunga_bytes_black_f32(in_bytes, 8, out_bytes, 9, f, p, b, 4, s, 4, rows, 0, columns, 0, work, 2, made, 2),
       ROLBHUNGA_DONE);
    is("black, bytes of samples", memcmp(out_bytes, "\0\0\x80\x40\0\0\0\x42\xcc", 9), 0);
    is("black, rooms", work[0] == 0.0f && work[1] == 0.0f && made[0] == 0.0f && made[1] == 0.0f, 1);
    is("black, u16 bytes, little room",
       rolbhunga_bytes_black_u16(bytes16, 4, out_bytes, 9, f, p, b, 4, s, 4, rows, 3, columns, 0, work16, 2, made, 1),
       ROLBHUNGA_WORK);
    is("black, u16 bytes",
       rolbhunga_bytes_black_u16(bytes16, 4, out_bytes, 9, f, p, b, 4, s, 4, rows, 3, columns, 0, work16, 2, made, 2),
       ROLBHUNGA_DONE);
    is("black, u16 bytes of samples", memcmp(out_bytes, "\0\0\x60\x40\0\0\xf0\x41\xcc", 9), 0);
}

int main(void) {
    uint8_t list[sizeof repair];
    rolbhunga_window w = {3, 1, 1, 3, 0, 0, 3, 1};
    rolbhunga_row_window rw = {3, 1, 0, 3, 1};
    rolbhunga_settings set = {1, 1.0f, false}, shown = {1, 1.0f, true};
    float f[3] = {10.0f, 0.0f, 19.0f}, work[3] = {1.0f, 2.0f, 3.0f};
    uint16_t u[3] = {10, 0, 19}, work16[3] = {1, 2, 3};
    uint32_t marks[1] = {7};
    uint8_t names[2] = {0xee, 0xee}, b[12], b16[7] = {10, 0, 0, 0, 19, 0, 0xcc};
    rolbhunga_numbers n;
    rolbhunga_row_numbers r;
    rolbhunga_found g;
    memcpy(list, repair, sizeof repair);

    n = rolbhunga_read(list, sizeof list);
    is("read", n.number, ROLBHUNGA_DONE);
    is("whole", n.offset, 0);
    n = rolbhunga_read(list, sizeof list - 1);
    is("cut", n.number, ROLBHUNGA_ENDS);
    is("cut after", n.entry, 1);
    is("cut at", n.offset, 40);
    is("cut, malformed", ROLBHUNGA_IS_MALFORMED(n.number), 1);
    is("done, malformed", ROLBHUNGA_IS_MALFORMED(ROLBHUNGA_DONE), 0);
    is("taken, malformed", ROLBHUNGA_IS_MALFORMED(ROLBHUNGA_NOT_TAKEN), 0);
    is("work, malformed", ROLBHUNGA_IS_MALFORMED(ROLBHUNGA_WORK), 0);
    is("degree, malformed", ROLBHUNGA_IS_MALFORMED(ROLBHUNGA_DEGREE), 1);
    list[19] = 7;
    n = rolbhunga_read(list, sizeof list);
    is("short body", n.number, ROLBHUNGA_INSIDE);
    is("short body after", n.entry, 0);
    is("short body at", n.offset, 24);
    r = rolbhunga_run_row(list, sizeof list, f, 3, rw, 0, 1.0f, false);
    is("row, short body", r.number, ROLBHUNGA_INSIDE);
    is("row, short body at", r.offset, 24);
    n = rolbhunga_run_f32(list, sizeof list, f, 3, w, set, marks, 1, names, 2);
    is("f32, short body at", n.offset, 24);
    list[19] = 8;
    list[3] = 9;
    n = rolbhunga_read(list, sizeof list - 16);
    is("too few", n.number, ROLBHUNGA_ENDS);
    is("too few at", n.offset, 28);
    list[2] = 16;
    n = rolbhunga_read(list, sizeof list);
    is("too many", n.number, ROLBHUNGA_TOO_MANY);
    list[2] = 0;
    list[3] = 2;
    list[18] = 1;
    n = rolbhunga_read(list, sizeof list);
    is("too long", n.number, ROLBHUNGA_TOO_LONG);
    is("too long at", n.offset, 16);
    list[18] = 0;

    memcpy(b, f, sizeof b);
    n = rolbhunga_run_f32(list, sizeof list, f, 3, w, set, marks, 1, names, 2);
    is("f32", n.number, ROLBHUNGA_DONE);
    is("f32 names", n.names, 1);
    is("f32 repaired", n.repaired, 1);
    is("f32 left", n.left, 0);
    is("f32 mean", f[1] == 14.5f, 1);
    is("f32 name", names[0], 2);
    is("f32 next", names[1], 0xee);
    is("f32 run, scratch", marks[0], 0);

    n = rolbhunga_run_u16(list, sizeof list, u, 3, w, 1, false, marks, 1, names, 2);
    is("u16", n.number, ROLBHUNGA_DONE);
    is("u16 mean", u[1], 15);

    r = rolbhunga_run_row(list, sizeof list, f, 3, rw, 0, 1.0f, false);
    is("row of a repair", r.number, ROLBHUNGA_NOT_TAKEN);
    list[3] = 0;
    r = rolbhunga_run_row(list, sizeof list, f, 3, rw, 0, 1.0f, false);
    is("row", r.number, ROLBHUNGA_DONE);
    r = rolbhunga_bytes_row(list, sizeof list, b, 12, rw, 0, 1.0f, false, work, 2);
    is("bytes of a row, little room", r.number, ROLBHUNGA_WORK);
    r = rolbhunga_bytes_row(list, sizeof list, b, 12, rw, 0, 1.0f, false, work, 3);
    is("bytes of a row", r.number, ROLBHUNGA_DONE);
    list[3] = 2;

    n = rolbhunga_bytes_f32(list, sizeof list, b, 12, w, set, work, 3, marks, 0, names, 2);
    is("bytes, no marks", n.number, ROLBHUNGA_MARKS);
    n = rolbhunga_bytes_f32(list, sizeof list, b, 12, w, set, work, 3, marks, 1, names, 2);
    is("bytes f32", n.number, ROLBHUNGA_DONE);
    is("bytes f32 mean", memcmp(b + 4, "\0\0\x68\x41", 4), 0);
    n = rolbhunga_bytes_u16(list, sizeof list, b16, 7, w, 1, false, work16, 3, marks, 1, names, 2);
    is("bytes u16", n.number, ROLBHUNGA_DONE);
    is("bytes u16 mean", b16[2], 15);
    is("bytes left over", b16[6], 0xcc);

    /* the repair may be skipped for a preview: what is left is the warp, or the whole list */
    is("settings", sizeof set, 16);
    list[15] = 2;
    f[1] = 0.0f;
    n = rolbhunga_run_f32(list, sizeof list, f, 3, w, shown, marks, 0, names, 2);
    is("preview f32", n.number, ROLBHUNGA_DONE);
    is("preview f32 names", n.names, 1);
    is("preview f32 repaired", n.repaired, 0);
    is("preview f32 sample", f[1] == 0.0f, 1);
    n = rolbhunga_run_f32(list, sizeof list, f, 3, w, set, marks, 0, names, 2);
    is("no preview f32", n.number, ROLBHUNGA_MARKS);
    u[1] = 0;
    n = rolbhunga_run_u16(list, sizeof list, u, 3, w, 1, true, marks, 0, names, 2);
    is("preview u16", n.number, ROLBHUNGA_DONE);
    n = rolbhunga_run_u16(list, sizeof list, u, 3, w, 1, false, marks, 0, names, 2);
    is("no preview u16", n.number, ROLBHUNGA_MARKS);
    r = rolbhunga_run_row(list, sizeof list, f, 3, rw, 0, 1.0f, true);
    is("preview row", r.number, ROLBHUNGA_DONE);
    is("preview row skipped", r.skipped, 1);
    r = rolbhunga_run_row(list, sizeof list, f, 3, rw, 0, 1.0f, false);
    is("no preview row", r.number, ROLBHUNGA_NOT_TAKEN);
    n = rolbhunga_bytes_f32(list, sizeof list, b, 12, w, shown, work, 3, marks, 0, names, 2);
    is("preview bytes f32", n.number, ROLBHUNGA_DONE);
    n = rolbhunga_bytes_u16(list, sizeof list, b16, 7, w, 1, true, work16, 3, marks, 0, names, 2);
    is("preview bytes u16", n.number, ROLBHUNGA_DONE);
    r = rolbhunga_bytes_row(list, sizeof list, b, 12, rw, 0, 1.0f, true, work, 3);
    is("preview bytes row", r.number, ROLBHUNGA_DONE);
    r = rolbhunga_bytes_row(list, sizeof list, b, 12, rw, 0, 1.0f, false, work, 3);
    is("no preview bytes row", r.number, ROLBHUNGA_NOT_TAKEN);
    /* the warp, with each flag, and what a preview leaves of it */
    list[15] = 0;
    is("a warp", rolbhunga_whole(list, sizeof list, 3, 1, false, ROLBHUNGA_DONE), 0);
    list[31 + 8] = 1;
    is("an optional warp", rolbhunga_whole(list, sizeof list, 3, 1, false, ROLBHUNGA_DONE), 1);
    is("a refusal", rolbhunga_whole(list, sizeof list, 3, 1, false, ROLBHUNGA_MARKS), 0);
    list[31 + 8] = 2;
    is("a warp for previews", rolbhunga_whole(list, sizeof list, 3, 1, false, ROLBHUNGA_DONE), 0);
    is("left out", rolbhunga_whole(list, sizeof list, 3, 1, true, ROLBHUNGA_DONE), 1);
    list[31 + 8] = 0;
    list[3] = 1;
    is("a repair", rolbhunga_whole(list, sizeof list, 3, 1, false, ROLBHUNGA_DONE), 1);
    list[3] = 2;
    list[15] = 2;
    is("a vignette on 2 by 3", rolbhunga_whole(vignette, sizeof vignette, 2, 3, false, ROLBHUNGA_DONE), 0);
    is("a vignette on 7 by 0", rolbhunga_whole(vignette, sizeof vignette, 7, 0, false, ROLBHUNGA_DONE), 1);
    is("a vignette on 0 by 7", rolbhunga_whole(vignette, sizeof vignette, 0, 7, false, ROLBHUNGA_DONE), 0);
    is("a vignette on 0 by 0", rolbhunga_whole(vignette, sizeof vignette, 0, 0, false, ROLBHUNGA_DONE), 0);
    list[31 + 8] = 2;
    n = rolbhunga_run_f32(list, sizeof list, f, 3, w, shown, marks, 0, names, 0);
    is("nothing left", n.number, ROLBHUNGA_DONE);
    is("nothing left, names", n.names, 0);
    /* the list is read whole, and its opcodes keep their numbers */
    n = rolbhunga_run_f32(list, sizeof list - 1, f, 3, w, shown, marks, 0, names, 0);
    is("preview, cut", n.number, ROLBHUNGA_ENDS);
    list[31] = 4;
    list[31 + 8] = 0;
    n = rolbhunga_run_f32(list, sizeof list, f, 3, w, shown, marks, 0, names, 0);
    is("preview, short body", n.number, ROLBHUNGA_INSIDE);
    is("preview, short body after", n.entry, 1);

    g = rolbhunga_find(dng, sizeof dng, 2);
    is("find", g.number, ROLBHUNGA_DONE);
    is("find start", g.start, 18);
    is("find length", g.length, 2);
    is("find another", rolbhunga_find(dng, sizeof dng, 1).number, ROLBHUNGA_MISSING);
    is("find, cut", rolbhunga_find(dng, sizeof dng - 1, 2).number, ROLBHUNGA_OUTSIDE);
    is("find, no header", rolbhunga_find(dng, 7, 3).number, ROLBHUNGA_NOT_TIFF);
    is("find what", rolbhunga_find(dng, sizeof dng, 4).number, ROLBHUNGA_RANGE);
    black();
    return failed;
}
