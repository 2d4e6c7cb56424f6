/* imgref.h: strided 2D images for C and C++, over calls that are proved.
 *
 * An image is a list of cells with a width and a height in pixels and a stride in cells. The pixel in column x of row y is
 * cell y * stride + x; every other cell is padding. The stride is at least 1 and at least the width, width and height are
 * below 2^32, and the cells reach the last pixel: imgref_is_image tells. An image with no pixel may have no cell.
 *
 * A cell has 1, 2, 4 or 8 bytes: each call on cells is here for uint8_t, uint16_t, uint32_t and uint64_t. A pixel of
 * three bytes is three cells of one byte, and calls with `channels` take such pixels. The others go by single cells:
 *
 *   fill_window, copy_window, move_window, pack, equal and imgref_window do the same for colours where the width of the image,
 *   and left and width of each window, are times three. fill_window gives all three cells one value.
 *   get and put take one of the three cells: column 3 * x is the first.
 *   Not for such colours: mosaic (mosaic_pixels is), since it gives the corner's first cell to all. flood_fill, components and
 *   bounding_box connect and compare single cells, so channels mix. histogram and equalize count all channels as one, and
 *   integral sums them. Copy each channel into an image of its own, or colours into cells of four bytes.
 *
 * Units     Widths, columns and left are counted in pixels, and so are heights, rows and top. Strides and lengths are
 *           counted in cells.
 * Sizes     Width and height are below 2^32. For a call with `channels` width * channels is below 2^32 too, and at most the
 *           stride: a row of 2^30 pixels of four cells is IMGREF_NOT_AN_IMAGE.
 * Results   A call returns IMGREF_OK, or which test failed first. Unless it is IMGREF_OK nothing has changed: no cell, and
 *           nothing that a pointer for a result points to.
 * Padding   No call that writes changes padding, except imgref_*_pack, which moves rows over it.
 * Memory    The caller owns all memory and lends it for the call. No call keeps a pointer, allocates memory or blocks. So
 *           any number of threads may call at the same time, on memory that none of them shares. Where another thread or
 *           process changes the pixels during a call, its results are unspecified, and it writes nothing outside its buffers.
 * Overlap   What a call may write must share no byte with anything else that the same call is given. What it only reads may
 *           overlap. imgref_*_move_window goes between two windows of one image, which may overlap.
 * Pointers  No pointer may be null, even where its length is 0. Any other pointer will do there, for example that of a
 *           variable of the cell's type; nothing is read or written there. Cells are aligned to a multiple of their size.
 * Processor x86-64-v2 or later (SSE4.2), or aarch64.
 * Lengths   A length is the number of cells that may be read (and, where they aren't const, written) from the pointer on.
 *
 * The proofs assume what Overlap, Pointers and Lengths say: no call can test it.
 */
#ifndef IMGREF_H
#define IMGREF_H

#include <stdbool.h>
#include <stddef.h>
#include <stdint.h>

/* The version of this header, in three numbers and as a text. */
#define IMGREF_VERSION_MAJOR 0
#define IMGREF_VERSION_MINOR 5
#define IMGREF_VERSION_PATCH 0
#define IMGREF_VERSION "0.5.0"

#ifdef __cplusplus
extern "C" {
#endif

/* What a call returns. */
typedef uint32_t imgref_status;
#define IMGREF_OK ((imgref_status)0)             /* it is done */
#define IMGREF_NOT_AN_IMAGE ((imgref_status)1)   /* a length, width, height and stride that are no image */
#define IMGREF_WINDOW_OUTSIDE ((imgref_status)2) /* a window isn't inside the image */
#define IMGREF_SIZES_DIFFER ((imgref_status)3)   /* a window or an image differs in size from what comes into it */
#define IMGREF_PLACE_OUTSIDE ((imgref_status)4)  /* there is no pixel in that column and row */
#define IMGREF_NO_TILE ((imgref_status)5)        /* there is no tile of that number, or a tile would have no pixel */
#define IMGREF_NO_TURN ((imgref_status)6)        /* there is no turn of that number */
#define IMGREF_TOO_LARGE ((imgref_status)7)      /* a sum might not fit its number */
#define IMGREF_NO_ROOM ((imgref_status)8)        /* a work buffer is smaller than the call needs */

/* A turn: how many quarters, clockwise. After IMGREF_RIGHT the first row is the last column, and after IMGREF_LEFT it is the
 * first column, from the bottom. */
typedef uint32_t imgref_turn;
#define IMGREF_RIGHT ((imgref_turn)1)
#define IMGREF_HALF ((imgref_turn)2)
#define IMGREF_LEFT ((imgref_turn)3)

/* A window of an image: the column and the row of its corner, and its size. It is inside where left + width is at most the
 * image's width and top + height at most its height, so an empty one at the edge is. No such sum overflows.
 * In C++ imgref_window without `struct` is the call of that name, so the struct has the name imgref_rect too. */
typedef struct imgref_window {
    size_t left;
    size_t top;
    size_t width;
    size_t height;
} imgref_rect;

/* Whether so many cells are an image of this size and stride. */
bool imgref_is_image(size_t len, size_t width, size_t height, size_t stride);

/* Whether a window is inside an image of this size. */
bool imgref_has_window(size_t width, size_t height, imgref_rect window);

/* Where a window's cells begin among those of the image, and how many there are up to its last pixel; of an empty window 0
 * and 0. So `cells + start` with that count, the window's size and the image's stride is an image, and nothing is copied.
 * IMGREF_NOT_AN_IMAGE, IMGREF_WINDOW_OUTSIDE. */
imgref_status imgref_window(size_t len, size_t width, size_t height, size_t stride, imgref_rect window, size_t *start,
                            size_t *count);

/* How many tiles of this size cover an image of that size: their corners are the multiples of the tile's size, and they are
 * cut at the right and the lower edge. IMGREF_NOT_AN_IMAGE (a size of 2^32 or more), IMGREF_NO_TILE (a tile of no pixel). */
imgref_status imgref_tile_count(size_t width, size_t height, size_t tile_width, size_t tile_height, size_t *count);

/* The window of the tile with a number below that count: line by line, from left to right. The same, and IMGREF_NO_TILE where
 * there is none of that number. */
imgref_status imgref_tile(size_t width, size_t height, size_t tile_width, size_t tile_height, size_t number,
                          imgref_rect *window);

/* For each type of cell, with `cells` and `len` an image of `width` by `height` at `stride`:
 *
 * get          The pixel in column x of row y goes to `pixel`. NOT_AN_IMAGE, PLACE_OUTSIDE.
 * put          The pixel in column x of row y becomes `value`. NOT_AN_IMAGE, PLACE_OUTSIDE.
 * fill_window  Every pixel of the window becomes `value`. NOT_AN_IMAGE, WINDOW_OUTSIDE.
 * copy_window  The window gets the pixels of `source`, an image of the window's size with a stride of its own. NOT_AN_IMAGE
 *              (of either), WINDOW_OUTSIDE, SIZES_DIFFER.
 * fill_pixels  Every pixel of the window becomes `pixel`, which has `channels` cells (1 to 4), next to one another in a row.
 *              Widths and columns are counted in pixels, and the stride in cells: a row has width * channels of them.
 *              NOT_AN_IMAGE (also of pixels with another number of cells), WINDOW_OUTSIDE.
 * move_window  The window `to` gets the pixels that the window `from` had; they may overlap. NOT_AN_IMAGE, WINDOW_OUTSIDE (of
 *              either), SIZES_DIFFER.
 * mosaic       Each tile of the window, from the window's corner on, gets the pixel that was at the tile's corner.
 *              NOT_AN_IMAGE, WINDOW_OUTSIDE, NO_TILE (a tile of no pixel).
 * mosaic_pixels  The same for pixels of `channels` cells, as fill_pixels has them. NOT_AN_IMAGE, WINDOW_OUTSIDE, NO_TILE.
 * count        How many pixels of the window have the value `value`, of `channels` cells (1 to 4), goes to `count`. Widths and
 *              columns are as in fill_pixels. NOT_AN_IMAGE (also of pixels with another number of cells), WINDOW_OUTSIDE.
 * turn_into    Every pixel becomes that of `source`, turned clockwise: IMGREF_RIGHT, IMGREF_HALF or IMGREF_LEFT. `source` is an
 *              image with a stride of its own, and the image has the size of the turned one. Both have pixels of `channels`
 *              cells, as fill_pixels has them. NO_TURN (tested first), NOT_AN_IMAGE (of either), SIZES_DIFFER.
 * transpose_into  Every pixel becomes that of `source` whose column is its row: columns become rows. Pixels and sizes are as in
 *              turn_into. NOT_AN_IMAGE (of either), SIZES_DIFFER.
 * turn         The image is turned in place: `turn` and pixels are as in turn_into. It has to be a square, unless the turn is
 *              IMGREF_HALF. NO_TURN (tested first), NOT_AN_IMAGE, SIZES_DIFFER.
 * transpose    Columns become rows in place: each pixel changes places with the one whose column is its row. The image has to
 *              be a square of pixels of `channels` cells. NOT_AN_IMAGE, SIZES_DIFFER.
 * flip_rows    The first row of the window changes places with its last, and so on. Pixels have `channels` cells, since the
 *              window is counted in pixels. NOT_AN_IMAGE, WINDOW_OUTSIDE.
 * flip_columns In each row of the window the first pixel changes places with the last, and so on. Pixels have `channels`
 *              cells. NOT_AN_IMAGE, WINDOW_OUTSIDE.
 * swap_rows    Rows y and z change places. Pixels have `channels` cells, since `width` is counted in pixels. NOT_AN_IMAGE,
 *              PLACE_OUTSIDE.
 * mosaic_means Each tile of the window gets the mean of its pixels, rounded to the nearest number: a half goes up. Each of the
 *              `channels` cells of a pixel is a mean of its own. A tile that the window's edge cuts has the pixels that are
 *              left of it. Only of u8 and u16. NOT_AN_IMAGE, WINDOW_OUTSIDE, NO_TILE.
 * pack         The rows come one after the other at the front of the cells, with no padding: from then on the stride is the
 *              width, or 1 for width 0, and the pixels are the first width * height cells. The cells after them stay.
 *              NOT_AN_IMAGE.
 * equal        Whether two images have one size and equal pixels at every place goes to `equal`; strides and padding don't
 *              count. NOT_AN_IMAGE (of either).
 * flood_fill   The pixel in column x of row y becomes `value`, and so does each that is connected with it: a path leads there
 *              over sides, and over places that show the same pixel. The work buffer `room` has a number for each place,
 *              width * height of them. What it has then means nothing. NOT_AN_IMAGE, PLACE_OUTSIDE, NO_ROOM.
 * components   `labels` is an image of the same size at a stride of its own. Each place gets a label there, and two places have
 *              one label exactly if they are connected, as in flood_fill. No pixel value is background. The labels are 1, 2 and
 *              so on up to the number of connected components, which goes to `count`. imgref_u64_count of a label is an area.
 *              `room` is as in flood_fill. NOT_AN_IMAGE (of either), NO_ROOM.
 * bounding_box The least window that has every place with a value goes to `around`. With a label it is the box around that
 *              component. Where no place has the value, it is 0, 0, 0, 0. NOT_AN_IMAGE.
 */
#define IMGREF_CALLS(NAME, CELL)                                                                                             \
    imgref_status imgref_##NAME##_get(const CELL *cells, size_t len, size_t width, size_t height, size_t stride, size_t x,    \
                                      size_t y, CELL *pixel);                                                                 \
    imgref_status imgref_##NAME##_put(CELL *cells, size_t len, size_t width, size_t height, size_t stride, size_t x,          \
                                      size_t y, CELL value);                                                                  \
    imgref_status imgref_##NAME##_fill_window(CELL *cells, size_t len, size_t width, size_t height, size_t stride,            \
                                              imgref_rect window, CELL value);                                                \
    imgref_status imgref_##NAME##_copy_window(CELL *cells, size_t len, size_t width, size_t height, size_t stride,            \
                                              imgref_rect window, const CELL *source, size_t source_len,                      \
                                              size_t source_width, size_t source_height, size_t source_stride);               \
    imgref_status imgref_##NAME##_move_window(CELL *cells, size_t len, size_t width, size_t height, size_t stride,            \
                                              imgref_rect from, imgref_rect to);                                              \
    imgref_status imgref_##NAME##_mosaic(CELL *cells, size_t len, size_t width, size_t height, size_t stride,                 \
                                         imgref_rect window, size_t tile_width, size_t tile_height);                          \
    imgref_status imgref_##NAME##_fill_pixels(CELL *cells, size_t len, size_t width, size_t height, size_t stride,            \
                                              imgref_rect window, const CELL *pixel, size_t channels);                        \
    imgref_status imgref_##NAME##_mosaic_pixels(CELL *cells, size_t len, size_t width, size_t height, size_t stride,          \
                                                size_t channels, imgref_rect window, size_t tile_width,                       \
                                                size_t tile_height);                                                          \
    imgref_status imgref_##NAME##_count(const CELL *cells, size_t len, size_t width, size_t height, size_t stride,            \
                                        imgref_rect window, const CELL *value, size_t channels, size_t *count);               \
    imgref_status imgref_##NAME##_turn_into(CELL *cells, size_t len, size_t width, size_t height, size_t stride,              \
                                            size_t channels, const CELL *source, size_t source_len, size_t source_width,      \
                                            size_t source_height, size_t source_stride, imgref_turn turn);                    \
    imgref_status imgref_##NAME##_transpose_into(CELL *cells, size_t len, size_t width, size_t height, size_t stride,         \
                                                 size_t channels, const CELL *source, size_t source_len,                      \
                                                 size_t source_width, size_t source_height, size_t source_stride);            \
    imgref_status imgref_##NAME##_turn(CELL *cells, size_t len, size_t width, size_t height, size_t stride, size_t channels,  \
                                       imgref_turn turn);                                                                     \
    imgref_status imgref_##NAME##_transpose(CELL *cells, size_t len, size_t width, size_t height, size_t stride,              \
                                            size_t channels);                                                                 \
    imgref_status imgref_##NAME##_flip_rows(CELL *cells, size_t len, size_t width, size_t height, size_t stride,              \
                                            size_t channels, imgref_rect window);                                             \
    imgref_status imgref_##NAME##_flip_columns(CELL *cells, size_t len, size_t width, size_t height, size_t stride,           \
                                               size_t channels, imgref_rect window);                                          \
    imgref_status imgref_##NAME##_swap_rows(CELL *cells, size_t len, size_t width, size_t height, size_t stride,              \
                                            size_t channels, size_t y, size_t z);                                             \
    imgref_status imgref_##NAME##_pack(CELL *cells, size_t len, size_t width, size_t height, size_t stride);                  \
    imgref_status imgref_##NAME##_equal(const CELL *cells, size_t len, size_t width, size_t height, size_t stride,            \
                                        const CELL *other, size_t other_len, size_t other_width, size_t other_height,         \
                                        size_t other_stride, bool *equal);                                                    \
    imgref_status imgref_##NAME##_flood_fill(CELL *cells, size_t len, size_t width, size_t height, size_t stride, size_t x,   \
                                             size_t y, CELL value, size_t *room, size_t room_len);                            \
    imgref_status imgref_##NAME##_components(const CELL *cells, size_t len, size_t width, size_t height, size_t stride,       \
                                             uint64_t *labels, size_t labels_len, size_t labels_stride, size_t *room,         \
                                             size_t room_len, uint64_t *count);                                               \
    imgref_status imgref_##NAME##_bounding_box(const CELL *cells, size_t len, size_t width, size_t height, size_t stride,     \
                                               CELL value, imgref_rect *around);

IMGREF_CALLS(u8, uint8_t)
IMGREF_CALLS(u16, uint16_t)
IMGREF_CALLS(u32, uint32_t)
IMGREF_CALLS(u64, uint64_t)
#undef IMGREF_CALLS

#define IMGREF_MEANS(NAME, CELL)                                                                                             \
    imgref_status imgref_##NAME##_mosaic_means(CELL *cells, size_t len, size_t width, size_t height, size_t stride,           \
                                               size_t channels, imgref_rect window, size_t tile_width, size_t tile_height);

IMGREF_MEANS(u8, uint8_t)
IMGREF_MEANS(u16, uint16_t)
#undef IMGREF_MEANS

/* Blurs of images of bytes:
 *
 * imgref_u8_blur    Each pixel of the window becomes the mean of the box around it, rounded to the nearest number: a half goes up.
 *                   Each of its `channels` cells is a mean of its own. The box has `across` pixels on the left and on the right,
 *                   and `down` above and below. What is outside the window doesn't count, so boxes are cut at its edges. Sizes,
 *                   the window and the box are counted in pixels, as in fill_pixels. `copy` and `sums` are work buffers, and
 *                   what they have then means nothing. NOT_AN_IMAGE (also of pixels with another number of cells), WINDOW_OUTSIDE,
 *                   TOO_LARGE (`across` or `down` is 2^15 or more), NO_ROOM.
 * imgref_blur_room  How large these are for a window: so many bytes for `copy`, and so many numbers for `sums`. `copy` has
 *                   the cells from the window's first to its last, and `sums` a number for each cell of its rows. NOT_AN_IMAGE,
 *                   WINDOW_OUTSIDE.
 */
imgref_status imgref_blur_room(size_t len, size_t width, size_t height, size_t stride, size_t channels, imgref_rect window,
                               size_t *copy_len, size_t *sums_len);
imgref_status imgref_u8_blur(uint8_t *cells, size_t len, size_t width, size_t height, size_t stride, size_t channels,
                             imgref_rect window, size_t across, size_t down, uint8_t *copy, size_t copy_len, uint32_t *sums,
                             size_t sums_len);

/* Values and sums of an image of bytes:
 *
 * histogram    How many pixels have each value goes to `counts`: number v counts the pixels that are v. Also of u16, with 65536
 *              counts. NOT_AN_IMAGE.
 * equalize     The values are spread over 0 to 255 by the cumulative histogram. A pixel becomes the part of 255 that the pixels
 *              up to its value are of all pixels, rounded down. NOT_AN_IMAGE.
 * integral     `areas` is an image of the same size at a stride of its own. Each of its pixels becomes the sum of the image's
 *              pixels up to its column in the rows up to its own. NOT_AN_IMAGE (of either), TOO_LARGE (2^56 pixels or more).
 */
imgref_status imgref_u8_histogram(const uint8_t *cells, size_t len, size_t width, size_t height, size_t stride,
                                  uint64_t counts[256]);
imgref_status imgref_u16_histogram(const uint16_t *cells, size_t len, size_t width, size_t height, size_t stride,
                                   uint64_t counts[65536]);
imgref_status imgref_u8_equalize(uint8_t *cells, size_t len, size_t width, size_t height, size_t stride);
imgref_status imgref_u8_integral(const uint8_t *cells, size_t len, size_t width, size_t height, size_t stride, uint64_t *areas,
                                 size_t areas_len, size_t areas_stride);

#ifdef __cplusplus
}
#endif

#endif
