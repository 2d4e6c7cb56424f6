/* One call of imgref.h, or the loop over rows that does the same, some times over. tools/call_cost.py counts its instructions.
 *
 *     cost CALL SIDE call|loop TIMES
 *
 * The image is a square of bytes at a stride of 8 more than its side, and the source of copies and of `equal` at 16 more. */
#include <imgref.h>

#include <stdio.h>
#include <stdlib.h>
#include <string.h>

#define LOOP __attribute__((noinline)) static void

typedef struct {
    uint8_t *cells, *source;
    size_t len, source_len, side, stride, source_stride;
    bool is_equal;
    uint8_t pixel;
} job;

LOOP loop_get(job *j) { j->pixel = j->cells[3 * j->stride + 3]; }

LOOP loop_fill(job *j) {
    for (size_t y = 0; y < j->side; y++) memset(j->cells + y * j->stride, 7, j->side);
}

LOOP loop_copy(job *j) {
    for (size_t y = 0; y < j->side; y++) memcpy(j->cells + y * j->stride, j->source + y * j->source_stride, j->side);
}

LOOP loop_down(job *j) {
    for (size_t y = j->side - 1; y--;) memmove(j->cells + (y + 1) * j->stride + 1, j->cells + y * j->stride, j->side - 1);
}

LOOP loop_right(job *j) {
    for (size_t y = 0; y < j->side - 1; y++) memmove(j->cells + y * j->stride + 1, j->cells + y * j->stride, j->side - 1);
}

LOOP loop_equal(job *j) {
    j->is_equal = false;
    for (size_t y = 0; y < j->side; y++)
        if (memcmp(j->cells + y * j->stride, j->source + y * j->source_stride, j->side)) return;
    j->is_equal = true;
}

LOOP loop_pack(job *j) {
    for (size_t y = 1; y < j->side; y++) memmove(j->cells + y * j->side, j->cells + y * j->stride, j->side);
}

#define IMAGE j->cells, j->len, j->side, j->side, j->stride
#define SOURCE j->source, j->source_len, j->side, j->side, j->source_stride

static imgref_rect at(size_t left, size_t top, size_t side) {
    imgref_rect made = {left, top, side, side};
    return made;
}

static imgref_status call_get(job *j) { return imgref_u8_get(IMAGE, 3, 3, &j->pixel); }
static imgref_status call_fill(job *j) { return imgref_u8_fill_window(IMAGE, at(0, 0, j->side), 7); }
static imgref_status call_copy(job *j) { return imgref_u8_copy_window(IMAGE, at(0, 0, j->side), SOURCE); }
static imgref_status call_down(job *j) { return imgref_u8_move_window(IMAGE, at(0, 0, j->side - 1), at(1, 1, j->side - 1)); }
static imgref_status call_right(job *j) { return imgref_u8_move_window(IMAGE, at(0, 0, j->side - 1), at(1, 0, j->side - 1)); }
static imgref_status call_equal(job *j) { return imgref_u8_equal(IMAGE, SOURCE, &j->is_equal); }
static imgref_status call_pack(job *j) { return imgref_u8_pack(IMAGE); }

static const struct {
    const char *name;
    imgref_status (*call)(job *);
    void (*loop)(job *);
} EACH[] = {
    {"get", call_get, loop_get},       {"fill_window", call_fill, loop_fill},       {"copy_window", call_copy, loop_copy},
    {"equal", call_equal, loop_equal}, {"move_window down", call_down, loop_down}, {"move_window right", call_right, loop_right},
    {"pack", call_pack, loop_pack},
};

int main(int count, char **words) {
    if (count != 5) return 1;
    const bool is_loop = !strcmp(words[3], "loop");
    size_t side = strtoul(words[2], NULL, 10), times = strtoul(words[4], NULL, 10);
    job j = {.side = side, .stride = side + 8, .source_stride = side + 16};
    j.len = j.stride * side;
    j.source_len = j.source_stride * side;
    j.cells = calloc(j.len, 1);
    j.source = calloc(j.source_len, 1);
    if (side < 4 || !j.cells || !j.source) return 1;
    for (size_t k = 0; k < sizeof EACH / sizeof *EACH; k++) {
        if (strcmp(EACH[k].name, words[1])) continue;
        for (size_t n = 0; n < times; n++) {
            if (is_loop)
                EACH[k].loop(&j);
            else if (EACH[k].call(&j) != IMGREF_OK)
                return 1;
        }
        return 0;
    }
    return 1;
}
