/* Times the calls of imgref.h and of bench_exports, and compares them with loops as a programmer writes them in C and in Rust, the plainest
 * call on as many cells without padding, and the calls of the Rust crate. tools/bench.py builds it, and makes the tables.
 *
 *     speed ROUNDS SIDE ..
 *
 * Each line has a call, the bytes of a cell, a side, and the nanoseconds of the call, of the loop in C, of the plain call, of the
 * loop in Rust and of the Rust crate's call (0 where there is none). A call works on a square of that side at a stride of 8 more.
 * The runs of all are interleaved, and the least time of each counts. No function that is timed is inlined. */
#define _POSIX_C_SOURCE 200112L
#include "imgref.h"
#include "speed.h"

#include <stdio.h>
#include <stdlib.h>
#include <string.h>
#include <time.h>

/* ---- each call: its name here, and its name in the table */

#define EACH(X)                                                                                                                      \
    X(fill, "fill_window")                                                                                                           \
    X(pixels_mut, "fill by pixels_mut")                                                                                              \
    X(tiles, "fill by tiles, 16 by 16")                                                                                              \
    X(bands, "fill by bands of 16 rows")                                                                                             \
    X(copy, "copy_window")                                                                                                           \
    X(move_down, "move_window down")                                                                                                 \
    X(move_right, "move_window right")                                                                                               \
    X(pack, "as_contiguous_buf, pack")                                                                                               \
    X(to_contiguous_buf, "to_contiguous_buf")                                                                                        \
    X(equal, "equal, ==")                                                                                                            \
    X(hash, "hash")                                                                                                                  \
    X(rows, "sum by rows")                                                                                                           \
    X(pixels, "sum by pixels")                                                                                                       \
    X(get, "sum by get")                                                                                                             \
    X(index, "sum by index")                                                                                                         \
    X(nested, "sum of a window of a window")                                                                                         \
    X(map_pixels, "map_pixels")                                                                                                      \
    X(swap_rows, "swap_rows, all")                                                                                                   \
    X(map_places, "map_places")                                                                                                      \
    X(zip_pixels, "zip_pixels")                                                                                                      \
    X(from_places, "from_places")                                                                                                    \
    X(flip_rows, "flip_rows")                                                                                                        \
    X(flip_columns, "flip_columns")                                                                                                  \
    X(swap_columns, "swap_columns")                                                                                                  \
    X(transpose_into, "transpose_into")                                                                                              \
    X(turn_into, "turn_into, a quarter")                                                                                             \
    X(half_turn, "turn_into, a half")                                                                                                \
    X(transpose, "transpose, in place")                                                                                              \
    X(turn, "turn, a quarter, in place")                                                                                             \
    X(mosaic, "mosaic 16 by 16")                                                                                                     \
    X(small, "mosaic 2 by 2")                                                                                                        \
    X(low, "mosaic 16 by 1")                                                                                                         \
    X(narrow, "mosaic 1 by 16")                                                                                                      \
    X(single, "mosaic 1 by 1")

/* Where one of these is defined nowhere, its address is null, and its column has a dash. */
#define DECLARE(NAME, TEXT)                                                                                                          \
    __attribute__((weak)) work call_u8_##NAME, call_u32_##NAME, loop_u8_##NAME, loop_u32_##NAME, plain_u8_##NAME, plain_u32_##NAME,  \
        rust_u8_##NAME, rust_u32_##NAME, crate_u8_##NAME, crate_u32_##NAME;
EACH(DECLARE)

static void done(imgref_status status) {
    if (status != IMGREF_OK) abort();
}

static struct imgref_window at(size_t left, size_t top, size_t width, size_t height) {
    return (struct imgref_window){left, top, width, height};
}

static void *room(size_t bytes) {
    void *held = malloc(bytes);
    if (!held) abort();
    return held;
}

/* What bench_exports has, with the image as each call takes it. */
#define IMAGE j->cells, j->len, j->side, j->side, j->stride
#define EXPORTS(NAME, CELL)                                                                                                          \
    uint64_t bench_##NAME##_rows(const CELL *cells, size_t len, size_t width, size_t height, size_t stride);                         \
    uint64_t bench_##NAME##_pixels(const CELL *cells, size_t len, size_t width, size_t height, size_t stride);                       \
    uint64_t bench_##NAME##_get(const CELL *cells, size_t len, size_t width, size_t height, size_t stride);                          \
    uint64_t bench_##NAME##_index(const CELL *cells, size_t len, size_t width, size_t height, size_t stride);                        \
    uint64_t bench_##NAME##_nested(const CELL *cells, size_t len, size_t width, size_t height, size_t stride);                       \
    uint64_t bench_##NAME##_hash(const CELL *cells, size_t len, size_t width, size_t height, size_t stride);                         \
    size_t bench_##NAME##_to_contiguous_buf(const CELL *cells, size_t len, size_t width, size_t height, size_t stride);              \
    void bench_##NAME##_pixels_mut(CELL *cells, size_t len, size_t width, size_t height, size_t stride);                             \
    void bench_##NAME##_tiles(CELL *cells, size_t len, size_t width, size_t height, size_t stride);                                  \
    void bench_##NAME##_bands(CELL *cells, size_t len, size_t width, size_t height, size_t stride);                                  \
    void bench_##NAME##_map_pixels(CELL *cells, size_t len, size_t width, size_t height, size_t stride);                             \
    void bench_##NAME##_swap_rows(CELL *cells, size_t len, size_t width, size_t height, size_t stride, size_t y, size_t z);          \
    void bench_##NAME##_map_places(CELL *cells, size_t len, size_t width, size_t height, size_t stride);                             \
    void bench_##NAME##_zip_pixels(CELL *cells, size_t len, size_t width, size_t height, size_t stride, const CELL *source, size_t source_len,\
                                   size_t source_stride);                                                                            \
    size_t bench_##NAME##_from_places(size_t width, size_t height);                                                                  \
    void bench_##NAME##_flip_rows(CELL *cells, size_t len, size_t width, size_t height, size_t stride);                              \
    void bench_##NAME##_flip_columns(CELL *cells, size_t len, size_t width, size_t height, size_t stride);                           \
    void bench_##NAME##_swap_columns(CELL *cells, size_t len, size_t width, size_t height, size_t stride);                           \
    void bench_##NAME##_transpose_into(CELL *cells, size_t len, size_t side, size_t stride, const CELL *source, size_t source_len,   \
        size_t source_stride);                                                                                                       \
    void bench_##NAME##_turn_into(CELL *cells, size_t len, size_t side, size_t stride, const CELL *source, size_t source_len,        \
        size_t source_stride);                                                                                                       \
    void bench_##NAME##_half_turn(CELL *cells, size_t len, size_t side, size_t stride, const CELL *source, size_t source_len,        \
        size_t source_stride);                                                                                                               \
    void bench_##NAME##_transpose(CELL *cells, size_t len, size_t side, size_t stride);                                              \
    void bench_##NAME##_turn(CELL *cells, size_t len, size_t side, size_t stride);
EXPORTS(u8, uint8_t)
EXPORTS(u32, uint32_t)

/* ---- the calls */

#define CALLS(NAME, CELL)                                                                                                            \
    void call_##NAME##_fill(struct job *j) { done(imgref_##NAME##_fill_window(IMAGE, at(0, 0, j->side, j->side), (CELL)7)); }        \
    void call_##NAME##_copy(struct job *j) {                                                                                         \
        done(imgref_##NAME##_copy_window(IMAGE, at(0, 0, j->side, j->side), j->source, j->source_len, j->side, j->side,              \
                                         j->source_stride));                                                                         \
    }                                                                                                                                \
    void call_##NAME##_move_down(struct job *j) {                                                                                    \
        size_t by = j->side / 8;                                                                                                     \
        done(imgref_##NAME##_move_window(IMAGE, at(0, 0, j->side, j->side - by), at(0, by, j->side, j->side - by)));                 \
    }                                                                                                                                \
    void call_##NAME##_move_right(struct job *j) {                                                                                   \
        done(imgref_##NAME##_move_window(IMAGE, at(0, 0, j->side - 1, j->side), at(1, 0, j->side - 1, j->side)));                    \
    }                                                                                                                                \
    void call_##NAME##_pack(struct job *j) { done(imgref_##NAME##_pack(IMAGE)); }                                                    \
    void call_##NAME##_equal(struct job *j) {                                                                                        \
        bool same;                                                                                                                   \
        done(imgref_##NAME##_equal(IMAGE, j->source, j->source_len, j->side, j->side, j->source_stride, &same));                     \
        j->answer = same;                                                                                                            \
    }                                                                                                                                \
    void call_##NAME##_mosaic(struct job *j) { done(imgref_##NAME##_mosaic(IMAGE, at(0, 0, j->side, j->side), 16, 16)); }            \
    void call_##NAME##_small(struct job *j) { done(imgref_##NAME##_mosaic(IMAGE, at(0, 0, j->side, j->side), 2, 2)); }               \
    void call_##NAME##_low(struct job *j) { done(imgref_##NAME##_mosaic(IMAGE, at(0, 0, j->side, j->side), 16, 1)); }                \
    void call_##NAME##_narrow(struct job *j) { done(imgref_##NAME##_mosaic(IMAGE, at(0, 0, j->side, j->side), 1, 16)); }             \
    void call_##NAME##_single(struct job *j) { done(imgref_##NAME##_mosaic(IMAGE, at(0, 0, j->side, j->side), 1, 1)); }              \
    void call_##NAME##_to_contiguous_buf(struct job *j) { j->answer = bench_##NAME##_to_contiguous_buf(IMAGE); }                     \
    void call_##NAME##_hash(struct job *j) { j->answer = bench_##NAME##_hash(IMAGE); }                                               \
    void call_##NAME##_rows(struct job *j) { j->answer = bench_##NAME##_rows(IMAGE); }                                               \
    void call_##NAME##_pixels(struct job *j) { j->answer = bench_##NAME##_pixels(IMAGE); }                                           \
    void call_##NAME##_get(struct job *j) { j->answer = bench_##NAME##_get(IMAGE); }                                                 \
    void call_##NAME##_index(struct job *j) { j->answer = bench_##NAME##_index(IMAGE); }                                             \
    void call_##NAME##_nested(struct job *j) { j->answer = bench_##NAME##_nested(IMAGE); }                                           \
    void call_##NAME##_pixels_mut(struct job *j) { bench_##NAME##_pixels_mut(IMAGE); }                                               \
    void call_##NAME##_tiles(struct job *j) { bench_##NAME##_tiles(IMAGE); }                                                         \
    void call_##NAME##_bands(struct job *j) { bench_##NAME##_bands(IMAGE); }                                                         \
    void call_##NAME##_map_pixels(struct job *j) { bench_##NAME##_map_pixels(IMAGE); }                                               \
    void call_##NAME##_swap_rows(struct job *j) {                                                                                    \
        for (size_t y = 0; y < j->side / 2; y++) bench_##NAME##_swap_rows(IMAGE, y, j->side - 1 - y);                                \
    }                                                                                                                                \
    void call_##NAME##_map_places(struct job *j) { bench_##NAME##_map_places(IMAGE); }                                               \
    void call_##NAME##_zip_pixels(struct job *j) { bench_##NAME##_zip_pixels(IMAGE, j->source, j->source_len, j->source_stride); }   \
    void call_##NAME##_from_places(struct job *j) { j->answer = bench_##NAME##_from_places(j->side, j->side); }                      \
    void call_##NAME##_flip_rows(struct job *j) { bench_##NAME##_flip_rows(IMAGE); }                                                 \
    void call_##NAME##_flip_columns(struct job *j) { bench_##NAME##_flip_columns(IMAGE); }                                           \
    void call_##NAME##_swap_columns(struct job *j) { bench_##NAME##_swap_columns(IMAGE); }                                           \
    void call_##NAME##_transpose_into(struct job *j) { bench_##NAME##_transpose_into(j->cells, j->len, j->side, j->stride, j->source, j->source_len, j->source_stride); }\
    void call_##NAME##_turn_into(struct job *j) { bench_##NAME##_turn_into(j->cells, j->len, j->side, j->stride, j->source, j->source_len, j->source_stride); }\
    void call_##NAME##_half_turn(struct job *j) { bench_##NAME##_half_turn(j->cells, j->len, j->side, j->stride, j->source, j->source_len, j->source_stride); }\
    void call_##NAME##_transpose(struct job *j) { bench_##NAME##_transpose(j->cells, j->len, j->side, j->stride); }                  \
    void call_##NAME##_turn(struct job *j) { bench_##NAME##_turn(j->cells, j->len, j->side, j->stride); }
CALLS(u8, uint8_t)
CALLS(u32, uint32_t)

/* ---- the loops */

#define ROW(CELL, Y) ((CELL *)j->cells + (Y) * j->stride)
#define SOURCE(CELL, Y) ((CELL *)j->source + (Y) * j->source_stride)
#define LOOPS(NAME, CELL, SET)                                                                                                       \
    void loop_##NAME##_fill(struct job *j) {                                                                                         \
        for (size_t y = 0; y < j->side; y++) SET(ROW(CELL, y), j->side);                                                             \
    }                                                                                                                                \
    void loop_##NAME##_pixels_mut(struct job *j) { loop_##NAME##_fill(j); }                                                          \
    void loop_##NAME##_bands(struct job *j) { loop_##NAME##_fill(j); }                                                               \
    void loop_##NAME##_tiles(struct job *j) {                                                                                        \
        for (size_t top = 0; top < j->side; top += 16)                                                                               \
            for (size_t left = 0; left < j->side; left += 16)                                                                        \
                for (size_t y = top; y < top + 16 && y < j->side; y++)                                                               \
                    SET(ROW(CELL, y) + left, left + 16 < j->side ? 16 : j->side - left);                                             \
    }                                                                                                                                \
    void loop_##NAME##_copy(struct job *j) {                                                                                         \
        for (size_t y = 0; y < j->side; y++) memcpy(ROW(CELL, y), SOURCE(CELL, y), j->side * sizeof(CELL));                          \
    }                                                                                                                                \
    /* The upper rows go down by an eighth, the last one first. */                                                                   \
    void loop_##NAME##_move_down(struct job *j) {                                                                                    \
        size_t by = j->side / 8;                                                                                                     \
        for (size_t y = j->side - by; y-- > 0;) memmove(ROW(CELL, y + by), ROW(CELL, y), j->side * sizeof(CELL));                    \
    }                                                                                                                                \
    /* All columns but the last go right by one, so that each row overlaps itself. */                                                \
    void loop_##NAME##_move_right(struct job *j) {                                                                                   \
        for (size_t y = 0; y < j->side; y++) memmove(ROW(CELL, y) + 1, ROW(CELL, y), (j->side - 1) * sizeof(CELL));                  \
    }                                                                                                                                \
    void loop_##NAME##_pack(struct job *j) {                                                                                         \
        for (size_t y = 1; y < j->side; y++) memmove((CELL *)j->cells + y * j->side, ROW(CELL, y), j->side * sizeof(CELL));          \
    }                                                                                                                                \
    void loop_##NAME##_to_contiguous_buf(struct job *j) {                                                                            \
        CELL *joined = room(j->side * j->side * sizeof(CELL));                                                                       \
        for (size_t y = 0; y < j->side; y++) memcpy(joined + y * j->side, ROW(CELL, y), j->side * sizeof(CELL));                     \
        j->answer = j->side * j->side;                                                                                               \
        __asm__ volatile("" ::"r"(joined) : "memory");                                                                               \
        free(joined);                                                                                                                \
    }                                                                                                                                \
    void loop_##NAME##_equal(struct job *j) {                                                                                        \
        j->answer = 1;                                                                                                               \
        for (size_t y = 0; y < j->side && j->answer; y++)                                                                            \
            j->answer = !memcmp(ROW(CELL, y), SOURCE(CELL, y), j->side * sizeof(CELL));                                              \
    }                                                                                                                                \
    void loop_##NAME##_rows(struct job *j) {                                                                                         \
        uint64_t sum = 0;                                                                                                            \
        for (size_t y = 0; y < j->side; y++)                                                                                         \
            for (size_t x = 0; x < j->side; x++) sum += ROW(CELL, y)[x];                                                             \
        j->answer = sum;                                                                                                             \
    }                                                                                                                                \
    void loop_##NAME##_pixels(struct job *j) { loop_##NAME##_rows(j); }                                                              \
    void loop_##NAME##_get(struct job *j) { loop_##NAME##_rows(j); }                                                                 \
    void loop_##NAME##_index(struct job *j) { loop_##NAME##_rows(j); }                                                               \
    void loop_##NAME##_nested(struct job *j) {                                                                                       \
        uint64_t sum = 0;                                                                                                            \
        for (size_t y = 1; y < j->side - 1; y++)                                                                                     \
            for (size_t x = 1; x < j->side - 1; x++) sum += ROW(CELL, y)[x];                                                         \
        j->answer = sum;                                                                                                             \
    }                                                                                                                                \
    void loop_##NAME##_map_pixels(struct job *j) {                                                                                   \
        for (size_t y = 0; y < j->side; y++)                                                                                         \
            for (size_t x = 0; x < j->side; x++) ROW(CELL, y)[x] = (CELL)~ROW(CELL, y)[x];                                           \
    }                                                                                                                                \
    /* Each row of the upper half changes places with one of the lower half, cell by cell. */                                        \
    void loop_##NAME##_swap_rows(struct job *j) {                                                                                    \
        for (size_t y = 0; y < j->side / 2; y++) {                                                                                   \
            CELL *upper = ROW(CELL, y), *lower = ROW(CELL, j->side - 1 - y);                                                         \
            for (size_t x = 0; x < j->side; x++) {                                                                                   \
                CELL kept = upper[x];                                                                                                \
                upper[x] = lower[x];                                                                                                 \
                lower[x] = kept;                                                                                                     \
            }                                                                                                                        \
        }                                                                                                                            \
    }                                                                                                                                \
    void loop_##NAME##_map_places(struct job *j) {                                                                                   \
        for (size_t y = 0; y < j->side; y++)                                                                                         \
            for (size_t x = 0; x < j->side; x++) ROW(CELL, y)[x] ^= (CELL)((x ^ y) % 256);                                                   \
    }                                                                                                                                \
    void loop_##NAME##_zip_pixels(struct job *j) {                                                                                   \
        for (size_t y = 0; y < j->side; y++)                                                                                         \
            for (size_t x = 0; x < j->side; x++)                                                                                     \
                if (ROW(CELL, y)[x] < SOURCE(CELL, y)[x]) ROW(CELL, y)[x] = SOURCE(CELL, y)[x];                                      \
    }                                                                                                                                \
    void loop_##NAME##_from_places(struct job *j) {                                                                                  \
        CELL *made = room(j->side * j->side * sizeof(CELL));                                                                         \
        for (size_t y = 0; y < j->side; y++)                                                                                         \
            for (size_t x = 0; x < j->side; x++) made[y * j->side + x] = (CELL)((x ^ y) % 256);                                              \
        j->answer = j->side * j->side;                                                                                               \
        __asm__ volatile("" ::"r"(made) : "memory");                                                                                 \
        free(made);                                                                                                                  \
    }                                                                                                                                \
    void loop_##NAME##_flip_rows(struct job *j) { loop_##NAME##_swap_rows(j); }                                                      \
    void loop_##NAME##_flip_columns(struct job *j) {                                                                                 \
        for (size_t y = 0; y < j->side; y++)                                                                                         \
            for (size_t x = 0; x < j->side / 2; x++) {                                                                               \
                CELL kept = ROW(CELL, y)[x];                                                                                         \
                ROW(CELL, y)[x] = ROW(CELL, y)[j->side - 1 - x];                                                                     \
                ROW(CELL, y)[j->side - 1 - x] = kept;                                                                                \
            }                                                                                                                        \
    }                                                                                                                                \
    void loop_##NAME##_swap_columns(struct job *j) {                                                                                 \
        for (size_t y = 0; y < j->side; y++) {                                                                                       \
            CELL kept = ROW(CELL, y)[0];                                                                                             \
            ROW(CELL, y)[0] = ROW(CELL, y)[j->side - 1];                                                                             \
            ROW(CELL, y)[j->side - 1] = kept;                                                                                        \
        }                                                                                                                            \
    }                                                                                                                                \
    void loop_##NAME##_transpose_into(struct job *j) {                                                                               \
        for (size_t y = 0; y < j->side; y++)                                                                                         \
            for (size_t x = 0; x < j->side; x++) ROW(CELL, y)[x] = SOURCE(CELL, x)[y];                                               \
    }                                                                                                                                \
    void loop_##NAME##_turn_into(struct job *j) {                                                                                    \
        for (size_t y = 0; y < j->side; y++)                                                                                         \
            for (size_t x = 0; x < j->side; x++) ROW(CELL, y)[x] = SOURCE(CELL, j->side - 1 - x)[y];                                 \
    }                                                                                                                                \
    void loop_##NAME##_half_turn(struct job *j) {                                                                                    \
        for (size_t y = 0; y < j->side; y++)                                                                                         \
            for (size_t x = 0; x < j->side; x++) ROW(CELL, y)[x] = SOURCE(CELL, j->side - 1 - y)[j->side - 1 - x];                   \
    }                                                                                                                                \
    void loop_##NAME##_transpose(struct job *j) {                                                                                    \
        for (size_t y = 0; y < j->side; y++)                                                                                         \
            for (size_t x = y + 1; x < j->side; x++) {                                                                               \
                CELL kept = ROW(CELL, y)[x];                                                                                         \
                ROW(CELL, y)[x] = ROW(CELL, x)[y];                                                                                   \
                ROW(CELL, x)[y] = kept;                                                                                              \
            }                                                                                                                        \
    }                                                                                                                                \
    void loop_##NAME##_turn(struct job *j) {                                                                                         \
        loop_##NAME##_transpose(j);                                                                                                  \
        loop_##NAME##_flip_columns(j);                                                                                               \
    }                                                                                                                                \
    /* Each cell of a tile becomes the one at its corner. */                                                                         \
    static void NAME##_tiles(struct job *j, size_t wide, size_t high) {                                                              \
        for (size_t top = 0; top < j->side; top += high)                                                                             \
            for (size_t left = 0; left < j->side; left += wide) {                                                                    \
                CELL corner = ROW(CELL, top)[left];                                                                                  \
                for (size_t y = top; y < top + high && y < j->side; y++)                                                             \
                    for (size_t x = left; x < left + wide && x < j->side; x++) ROW(CELL, y)[x] = corner;                             \
            }                                                                                                                        \
    }                                                                                                                                \
    void loop_##NAME##_mosaic(struct job *j) { NAME##_tiles(j, 16, 16); }                                                            \
    void loop_##NAME##_small(struct job *j) { NAME##_tiles(j, 2, 2); }                                                               \
    void loop_##NAME##_low(struct job *j) { NAME##_tiles(j, 16, 1); }                                                                \
    void loop_##NAME##_narrow(struct job *j) { NAME##_tiles(j, 1, 16); }                                                             \
    void loop_##NAME##_single(struct job *j) { NAME##_tiles(j, 1, 1); }
#define SET_BYTES(ROW, COUNT) memset(ROW, 7, COUNT)
#define SET_WORDS(ROW, COUNT) for (size_t x = 0, count = COUNT; x < count; x++) (ROW)[x] = 7
LOOPS(u8, uint8_t, SET_BYTES)
LOOPS(u32, uint32_t, SET_WORDS)

/* ---- the plain calls on as many cells */

#define PLAIN(NAME, CELL)                                                                                                            \
    static size_t NAME##_bytes(struct job *j) { return j->side * j->side * sizeof(CELL); }                                           \
    void plain_##NAME##_fill(struct job *j) { memset(j->cells, 7, NAME##_bytes(j)); }                                                \
    void plain_##NAME##_copy(struct job *j) { memcpy(j->cells, j->source, NAME##_bytes(j)); }                                        \
    void plain_##NAME##_move_right(struct job *j) { memmove((CELL *)j->cells + 1, j->cells, NAME##_bytes(j) - sizeof(CELL)); }       \
    void plain_##NAME##_to_contiguous_buf(struct job *j) {                                                                           \
        void *joined = room(NAME##_bytes(j));                                                                                        \
        memcpy(joined, j->cells, NAME##_bytes(j));                                                                                   \
        j->answer = j->side * j->side;                                                                                               \
        __asm__ volatile("" ::"r"(joined) : "memory");                                                                               \
        free(joined);                                                                                                                \
    }                                                                                                                                \
    void plain_##NAME##_equal(struct job *j) { j->answer = !memcmp(j->cells, j->source, NAME##_bytes(j)); }
PLAIN(u8, uint8_t)
PLAIN(u32, uint32_t)

/* ---- timing */

enum { COLUMNS = 5 };

static int rounds, sides;
static size_t side_of[16];

static double now(void) {
    struct timespec time;
    clock_gettime(CLOCK_MONOTONIC, &time);
    return 1e9 * (double)time.tv_sec + (double)time.tv_nsec;
}

/* The nanoseconds of one call, over so many. */
static double timed(work *call, struct job *j, int times) {
    double began = now();
    for (int k = 0; k < times; k++) {
        call(j);
        __asm__ volatile("" ::: "memory");
    }
    return (now() - began) / times;
}

static struct job made(size_t side, size_t cell) {
    struct job j = {.side = side, .stride = side + 8, .source_stride = side + 16};
    j.len = j.stride * side, j.source_len = j.source_stride * side;
    if (posix_memalign(&j.cells, 64, j.len * cell) || posix_memalign(&j.source, 64, j.source_len * cell)) abort();
    memset(j.cells, 5, j.len * cell);
    memset(j.source, 5, j.source_len * cell);
    return j;
}

/* All columns of one call on one size. They have to return the same. */
static void compare(const char *name, size_t cell, size_t side, work *const all[COLUMNS]) {
    struct job j = made(side, cell);
    double best[COLUMNS] = {0};
    for (int k = 0; k < COLUMNS; k++)
        if (all[k]) {
            uint64_t answer = j.answer;
            all[k](&j);
            if (k && j.answer != answer) fprintf(stderr, "%s, side %zu: column %d returns another result\n", name, side, k), abort();
        }
    int times = side < 100 ? 100 : side < 1000 ? 4 : 1;
    /* A slow call gets fewer iterations: about a third of a second for all columns. */
    double began = now();
    for (int turn = 0; turn < rounds && (turn < 5 || now() - began < 3e8); turn++)
        for (int k = 0; k < COLUMNS; k++)
            if (all[k]) {
                double took = timed(all[k], &j, times);
                best[k] = turn && best[k] < took ? best[k] : took;
            }
    printf("%s\t%zu\t%zu", name, cell, side);
    for (int k = 0; k < COLUMNS; k++) printf("\t%.1f", best[k]);
    printf("\n");
    fflush(stdout);
    free(j.cells);
    free(j.source);
}

#define COLUMNS_OF(CELL, NAME) call_##CELL##_##NAME, loop_##CELL##_##NAME, plain_##CELL##_##NAME, rust_##CELL##_##NAME, crate_##CELL##_##NAME
#define COMPARE(NAME, TEXT)                                                                                \
    for (int k = 0; k < sides; k++) compare(TEXT, 1, side_of[k], (work *const[]){COLUMNS_OF(u8, NAME)});   \
    for (int k = 0; k < sides; k++) compare(TEXT, 4, side_of[k], (work *const[]){COLUMNS_OF(u32, NAME)});

int main(int count, char **words) {
    rounds = count > 1 ? atoi(words[1]) : 400;
    for (int k = 2; k < count && sides < 16; k++) side_of[sides++] = (size_t)strtoul(words[k], NULL, 10);
    for (int k = 0; k < sides; k++)
        if (side_of[k] < 8) return 2;
    if (!sides || rounds < 1) return 2;
    EACH(COMPARE)
    return 0;
}
