/* What the Python package calls: the calls of imgref.h on a cell of any size, chosen at run time.
 *
 * An image is one struct, and a value is the bits of cells. Windows and places are counted in pixels, of which each is `step`
 * cells. A cell has 1, 2, 4 or 8 bytes: native.c tests it. */
#ifndef IMGREF_NATIVE_H
#define IMGREF_NATIVE_H

#include <imgref.h>
#include <stdint.h>

/* A pixel has at most so many cells. */
#define MOST_STEPS 4

typedef struct {
    uintptr_t cells;
    size_t len, width, height, stride; /* counted in cells */
    size_t size;                       /* bytes of a cell */
    size_t step;                       /* cells of a pixel */
} image;

/* What no image points to: no pointer may be null, also where there is no cell. */
static uint64_t nowhere;

#define CELLS(TYPE, OF) ((TYPE *)((OF)->cells ? (OF)->cells : (uintptr_t)&nowhere))
#define LAYOUT(TYPE, OF) CELLS(TYPE, OF), (OF)->len, (OF)->width, (OF)->height, (OF)->stride
/* The same with the width in pixels. */
#define PIXELS(TYPE, OF) CELLS(TYPE, OF), (OF)->len, (OF)->width / (OF)->step, (OF)->height, (OF)->stride
/* The call for the size of the image's cells. */
#define BY_SIZE(CALL)                                                                                                        \
    switch (i->size) {                                                                                                       \
    case 1: return CALL(u8, uint8_t);                                                                                        \
    case 2: return CALL(u16, uint16_t);                                                                                      \
    case 4: return CALL(u32, uint32_t);                                                                                      \
    case 8: return CALL(u64, uint64_t);                                                                                      \
    default: return IMGREF_NOT_AN_IMAGE;                                                                                     \
    }

static imgref_rect rect(size_t left, size_t top, size_t width, size_t height) {
    imgref_rect made = {left, top, width, height};
    return made;
}

/* A number of pixels in cells. What is too large for any image stays so. */
static size_t times(size_t number, size_t step) { return number > SIZE_MAX / step ? SIZE_MAX : number * step; }

/* A window of pixels as one of cells. */
static imgref_rect in_cells(const image *i, imgref_rect w) {
    return rect(times(w.left, i->step), w.top, times(w.width, i->step), w.height);
}

static imgref_rect whole(const image *i) { return rect(0, 0, i->width / i->step, i->height); }

/* The image with more cells in a pixel, which are shorter by as much. */
static image with_step(image it, size_t step) {
    size_t more = step / it.step;
    image made = {it.cells, times(it.len, more), times(it.width, more), it.height, times(it.stride, more), it.size / more, step};
    return made;
}

static bool image_is_valid(const image *i) { return imgref_is_image(i->len, i->width, i->height, i->stride); }

#define DEFINE_CALLS(NAME, TYPE)                                                                                             \
    static imgref_status get_##NAME(const image *i, size_t x, size_t y, uint64_t *bits) {                                    \
        TYPE cell = 0;                                                                                                       \
        imgref_status status = imgref_##NAME##_get(LAYOUT(TYPE, i), x, y, &cell);                                            \
        *bits = cell;                                                                                                        \
        return status;                                                                                                       \
    }                                                                                                                        \
    static imgref_status fill_##NAME(const image *i, imgref_rect window, const uint64_t *bits) {                             \
        TYPE pixel[MOST_STEPS];                                                                                              \
        bool is_one = true;                                                                                                  \
        for (size_t k = 0; k < i->step; k++) {                                                                               \
            pixel[k] = (TYPE)bits[k];                                                                                        \
            is_one = is_one && pixel[k] == pixel[0];                                                                         \
        }                                                                                                                    \
        if (is_one) return imgref_##NAME##_fill_window(LAYOUT(TYPE, i), in_cells(i, window), pixel[0]);                      \
        return imgref_##NAME##_fill_pixels(PIXELS(TYPE, i), window, pixel, i->step);                                         \
    }                                                                                                                        \
    static imgref_status count_##NAME(const image *i, imgref_rect window, const uint64_t *bits, size_t *count) {             \
        TYPE value[MOST_STEPS];                                                                                              \
        for (size_t k = 0; k < i->step; k++) value[k] = (TYPE)bits[k];                                                       \
        return imgref_##NAME##_count(PIXELS(TYPE, i), window, value, i->step, count);                                        \
    }
DEFINE_CALLS(u8, uint8_t)
DEFINE_CALLS(u16, uint16_t)
DEFINE_CALLS(u32, uint32_t)
DEFINE_CALLS(u64, uint64_t)

/* The cell in a column of cells. */
#define GET(NAME, TYPE) get_##NAME(i, x, y, bits)
static imgref_status get_cell(const image *i, size_t x, size_t y, uint64_t *bits) { BY_SIZE(GET) }

static imgref_status image_get(const image *i, size_t x, size_t y, uint64_t *bits) {
    imgref_status status = IMGREF_OK;
    for (size_t k = 0; k < i->step && status == IMGREF_OK; k++) status = get_cell(i, times(x, i->step) + k, y, bits + k);
    return status;
}

#define PUT(NAME, TYPE) imgref_##NAME##_put(LAYOUT(TYPE, i), x, y, (TYPE)bits)
static imgref_status put_cell(const image *i, size_t x, size_t y, uint64_t bits) { BY_SIZE(PUT) }

/* All cells of a pixel are inside, or none. */
static imgref_status image_put(const image *i, size_t x, size_t y, const uint64_t *bits) {
    imgref_status status = IMGREF_OK;
    for (size_t k = 0; k < i->step && status == IMGREF_OK; k++) status = put_cell(i, times(x, i->step) + k, y, bits[k]);
    return status;
}

#define FILL(NAME, TYPE) fill_##NAME(i, window, bits)
static imgref_status image_fill(const image *i, imgref_rect window, const uint64_t *bits) { BY_SIZE(FILL) }

#define COUNT(NAME, TYPE) count_##NAME(i, window, bits, count)
static imgref_status image_count(const image *i, imgref_rect window, const uint64_t *bits, size_t *count) { BY_SIZE(COUNT) }

/* Whether the cells of two images share memory. */
static bool images_overlap(const image *i, const image *o) {
    return i->cells < o->cells + o->len * o->size && o->cells < i->cells + i->len * i->size;
}

/* Whether no pixel of two images is one of the other's, as far as equal strides tell it. The one that begins first has its columns
 * in front, and the other begins so many rows and bytes after it. */
static bool images_apart(const image *i, const image *o) {
    if (!i->width || !i->height || !o->width || !o->height || !images_overlap(i, o)) return true;
    const image *first = i->cells <= o->cells ? i : o, *second = first == i ? o : i;
    const size_t stride = i->stride * i->size, away = second->cells - first->cells;
    if (stride != o->stride * o->size) return false;
    const size_t rows = away / stride, bytes = away % stride;
    return (bytes >= first->width * first->size || rows >= first->height) &&
           (second->width * second->size <= stride - bytes || rows + 1 >= first->height);
}

/* A row of an image, as an image. */
static image row_of(const image *i, size_t y) {
    image made = {i->cells + y * i->stride * i->size, i->width, i->width, 1, i->width ? i->width : 1, i->size, i->step};
    return made;
}

/* Both images have cells of one size, and share no memory: the caller tests it. */
#define COPY(NAME, TYPE) imgref_##NAME##_copy_window(LAYOUT(TYPE, i), in_cells(i, window), LAYOUT(TYPE, o))
static imgref_status image_copy(const image *i, imgref_rect window, const image *o) { BY_SIZE(COPY) }

/* The same between two images of one size whose rows alternate in memory, and that share no pixel. */
static imgref_status image_copy_rows(const image *i, const image *o) {
    imgref_status status = IMGREF_OK;
    for (size_t y = 0; y < i->height && i->width && status == IMGREF_OK; y++) {
        const image to = row_of(i, y), from = row_of(o, y);
        status = image_copy(&to, whole(&to), &from);
    }
    return status;
}

#define MOVE(NAME, TYPE) imgref_##NAME##_move_window(LAYOUT(TYPE, i), in_cells(i, from), in_cells(i, to))
static imgref_status image_move(const image *i, imgref_rect from, imgref_rect to) { BY_SIZE(MOVE) }

#define MOSAIC(NAME, TYPE) imgref_##NAME##_mosaic_pixels(PIXELS(TYPE, i), i->step, window, tile_width, tile_height)
static imgref_status image_mosaic(const image *i, imgref_rect window, size_t tile_width, size_t tile_height) { BY_SIZE(MOSAIC) }

/* The pixels of `o` go to `i`, turned, or transposed where the turn is 0. Both images have cells of one size and as many of them
 * in a pixel, and share no memory: the caller tests it. */
#define TURN(NAME, TYPE) imgref_##NAME##_turn_into(PIXELS(TYPE, i), i->step, PIXELS(TYPE, o), turn)
#define TRANSPOSE(NAME, TYPE) imgref_##NAME##_transpose_into(PIXELS(TYPE, i), i->step, PIXELS(TYPE, o))
static imgref_status image_transpose(const image *i, const image *o) { BY_SIZE(TRANSPOSE) }
static imgref_status image_turn(const image *i, const image *o, imgref_turn turn) {
    if (!turn) return image_transpose(i, o);
    BY_SIZE(TURN)
}

/* The same in place. */
#define TURN_IN_PLACE(NAME, TYPE) imgref_##NAME##_turn(PIXELS(TYPE, i), i->step, turn)
#define TRANSPOSE_IN_PLACE(NAME, TYPE) imgref_##NAME##_transpose(PIXELS(TYPE, i), i->step)
static imgref_status image_transpose_in_place(const image *i) { BY_SIZE(TRANSPOSE_IN_PLACE) }
static imgref_status image_turn_in_place(const image *i, imgref_turn turn) {
    if (!turn) return image_transpose_in_place(i);
    BY_SIZE(TURN_IN_PLACE)
}

#define FLIP_ROWS(NAME, TYPE) imgref_##NAME##_flip_rows(PIXELS(TYPE, i), i->step, window)
static imgref_status image_flip_rows(const image *i, imgref_rect window) { BY_SIZE(FLIP_ROWS) }

#define FLIP_COLUMNS(NAME, TYPE) imgref_##NAME##_flip_columns(PIXELS(TYPE, i), i->step, window)
static imgref_status image_flip_columns(const image *i, imgref_rect window) { BY_SIZE(FLIP_COLUMNS) }

#define SWAP_ROWS(NAME, TYPE) imgref_##NAME##_swap_rows(PIXELS(TYPE, i), i->step, y, z)
static imgref_status image_swap_rows(const image *i, size_t y, size_t z) { BY_SIZE(SWAP_ROWS) }

/* The cells are numbers of one or of two bytes: the caller tests it. */
static imgref_status image_mosaic_means(const image *i, imgref_rect window, size_t tile_width, size_t tile_height) {
    switch (i->size) {
    case 1: return imgref_u8_mosaic_means(PIXELS(uint8_t, i), i->step, window, tile_width, tile_height);
    case 2: return imgref_u16_mosaic_means(PIXELS(uint16_t, i), i->step, window, tile_width, tile_height);
    default: return IMGREF_NOT_AN_IMAGE;
    }
}

/* The work buffer that a blur of a window needs: so many bytes, and so many numbers of four bytes. */
static imgref_status image_blur_room(const image *i, imgref_rect window, size_t *bytes, size_t *numbers) {
    return imgref_blur_room(i->len, i->width / i->step, i->height, i->stride, i->step, window, bytes, numbers);
}

/* The cells are bytes, and there is that buffer: the caller tests it. */
static imgref_status image_blur(const image *i, imgref_rect window, size_t across, size_t down, uint8_t *copy, size_t bytes, uint32_t *sums, size_t numbers) {
    return imgref_u8_blur(PIXELS(uint8_t, i), i->step, window, across, down, copy, bytes, sums, numbers);
}

/* The cells are numbers of one or of two bytes, each a pixel, and there is a count for each value: the caller tests it. */
static imgref_status image_histogram(const image *i, uint64_t *counts) {
    return i->size == 1 ? imgref_u8_histogram(LAYOUT(uint8_t, i), counts) : imgref_u16_histogram(LAYOUT(uint16_t, i), counts);
}

/* The cells are bytes: the caller tests it. */
static imgref_status image_equalize(const image *i) { return imgref_u8_equalize(LAYOUT(uint8_t, i)); }

/* The same, and the areas are numbers of eight bytes in an image of the same size that shares no memory with the other. */
static imgref_status image_integral(const image *i, const image *areas) {
    return imgref_u8_integral(LAYOUT(uint8_t, i), CELLS(uint64_t, areas), areas->len, areas->stride);
}

/* How many cells an image has. */
#define ALL(OF) ((OF)->width * (OF)->height)

/* A pixel is one cell, and the work buffer has a number for each: the caller tests it. */
#define FLOOD_FILL(NAME, TYPE) imgref_##NAME##_flood_fill(LAYOUT(TYPE, i), x, y, (TYPE)bits, room, ALL(i))
static imgref_status image_flood_fill(const image *i, size_t x, size_t y, uint64_t bits, size_t *room) { BY_SIZE(FLOOD_FILL) }

/* The same, and the labels are numbers of eight bytes in an image of the same size that shares no memory with the other. */
#define COMPONENTS(NAME, TYPE)                                                                                               \
    imgref_##NAME##_components(LAYOUT(TYPE, i), CELLS(uint64_t, labels), labels->len, labels->stride, room, ALL(i), count)
static imgref_status image_components(const image *i, const image *labels, size_t *room, uint64_t *count) { BY_SIZE(COMPONENTS) }

#define BOUNDING_BOX(NAME, TYPE) imgref_##NAME##_bounding_box(LAYOUT(TYPE, i), (TYPE)bits, around)
static imgref_status image_bounding_box(const image *i, uint64_t bits, imgref_rect *around) { BY_SIZE(BOUNDING_BOX) }

/* The stride is that of joined rows from then on. */
#define PACK(NAME, TYPE) imgref_##NAME##_pack(LAYOUT(TYPE, i))
static imgref_status image_pack(const image *i) { BY_SIZE(PACK) }

/* Both images have cells of one size: the caller tests it. */
#define EQUAL(NAME, TYPE) imgref_##NAME##_equal(LAYOUT(TYPE, i), LAYOUT(TYPE, o), equal)
static imgref_status image_equal(const image *i, const image *o, bool *equal) { BY_SIZE(EQUAL) }

/* A window of an image, as an image over the same cells. */
static imgref_status image_window(const image *i, imgref_rect window, image *made) {
    size_t start, count;
    imgref_rect w = in_cells(i, window);
    imgref_status status = imgref_window(i->len, i->width, i->height, i->stride, w, &start, &count);
    if (status != IMGREF_OK) return status;
    *made = *i;
    made->cells = i->cells + start * i->size;
    made->len = count;
    made->width = w.width;
    made->height = w.height;
    return status;
}

#endif
