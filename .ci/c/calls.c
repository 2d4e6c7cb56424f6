/* Calls each function of imgref.h with random arguments, good and bad, beside a model that was written from the header alone:
 * it goes place by place, and multiplies in 128 bits. A series of a function passes where each call returned what the model
 * says, left exactly the model's cells, and every status that the header gives the function was seen.
 * The cells of each image begin or end at a page that can't be read: so the process ends where a call goes past them.
 *
 * Ends with the line 'N passed, M failed'. */
#define _DEFAULT_SOURCE
#include "imgref.h"

#include <stdio.h>
#include <stdlib.h>
#include <string.h>
#include <sys/mman.h>
#include <unistd.h>

/* So a function for the four types of cell is called 100,000 times. */
enum { ROUNDS = 25000, GUARD = 16, ROOM = 1 << 20 };

/* ---- memory between two pages that can't be read or written */

/* There are two rooms, since no call takes more than two images. */
static unsigned char *next_room(void) {
    static unsigned char *rooms[2];
    static int turn;
    turn = !turn;
    if (!rooms[turn]) {
        size_t page = (size_t)sysconf(_SC_PAGESIZE);
        unsigned char *all = mmap(NULL, ROOM + 2 * page, PROT_NONE, MAP_PRIVATE | MAP_ANONYMOUS, -1, 0);
        if (all == MAP_FAILED || mprotect(all + page, ROOM, PROT_READ | PROT_WRITE)) abort();
        rooms[turn] = all + page;
    }
    return rooms[turn];
}

/* ---- random numbers, the same in each run */

static uint64_t state = 88172645463325252u;

static size_t any(void) {
    state ^= state << 13;
    state ^= state >> 7;
    state ^= state << 17;
    return (size_t)(state >> 11);
}

/* Small, or near the end of 32 or of 64 bits. */
static size_t any_number(void) {
    const size_t ends[] = {0, 1, 7, UINT32_MAX, (size_t)UINT32_MAX + 1, SIZE_MAX / 2, SIZE_MAX};
    return ends[any() % (sizeof ends / sizeof *ends)] + any() % 3 - any() % 3;
}

static size_t up_to(size_t last) { return last == SIZE_MAX ? any() : any() % (last + 1); }

/* Mostly below a size, now and then at or past it. */
static size_t near(size_t size) { return any() % 8 ? any() % (size % 64 + 1) : any() % 3 ? size : any_number(); }

/* ---- the model of sizes and windows */

struct sizes {
    size_t len, width, height, stride;
};

static bool is_image(struct sizes is) {
    if (is.stride < 1 || is.width > is.stride || is.width >> 32 || is.height >> 32) return false;
    return !is.width || !is.height || (unsigned __int128)is.stride * (is.height - 1) + is.width <= is.len;
}

static bool is_inside(struct sizes is, struct imgref_window w) {
    return (unsigned __int128)w.left + w.width <= is.width && (unsigned __int128)w.top + w.height <= is.height;
}

/* ---- pixels of several cells */

/* Mostly as many as a pixel may have. */
static size_t any_channels(void) { return any() % 8 ? 1 + any() % 4 : any() % 7; }

/* The pixels of a row, where a row has so many cells. */
static size_t in_pixels(struct sizes is, size_t channels) { return channels && is.width < 64 ? is.width / channels : is.width; }

static bool is_pixel_image(struct sizes is, size_t channels) {
    if (channels < 1 || channels > 4 || is.width >> 32) return false;
    is.width *= channels;
    return is_image(is);
}

/* An image of this size, with padding and cells after its last pixel. */
static struct sizes sized(size_t width, size_t height) {
    struct sizes is = {.width = width, .height = height, .stride = width + any() % 4};
    is.stride += !is.stride;
    is.len = (width && height ? is.stride * (height - 1) + width : 0) + any() % 5;
    return is;
}

/* Mostly an image, else one with a number changed. */
static struct sizes any_sizes(void) {
    struct sizes is = sized(any() % 12, any() % 12);
    if (any() % 6) return is;
    switch (any() % 4) {
    case 0: is.width = any_number(); break;
    case 1: is.height = any_number(); break;
    case 2: is.stride = any_number(); break;
    default: is.len -= is.len ? any() % is.len + 1 : 0;
    }
    return is;
}

/* Mostly a window inside, else one with a number changed. */
static struct imgref_window any_window(struct sizes is) {
    size_t width = any() % (is.width % 64 + 1), height = any() % (is.height % 64 + 1);
    struct imgref_window w = {up_to(is.width - width), up_to(is.height - height), width, height};
    if (any() % 6) return w;
    size_t *numbers[] = {&w.left, &w.top, &w.width, &w.height};
    *numbers[any() % 4] = any_number();
    return w;
}

/* ---- counting */

static unsigned passed, failed;
static bool well;

/* What one call came to. */
static void tell(bool is_well) { well = well && is_well; }

static void count(const char *name, bool is_well) {
    printf("%s: %s\n", name, is_well ? "passed" : "FAILED");
    passed += is_well;
    failed += !is_well;
}

/* Many calls of one function, which have to return each of these statuses at least once. */
static void series(const char *name, imgref_status (*one)(struct sizes), unsigned wanted) {
    unsigned seen = 0;
    well = true;
    for (int k = 0; k < ROUNDS; k++) seen |= 1u << one(any_sizes());
    if (seen != wanted) printf("%s: returns %x, wanted %x\n", name, seen, wanted);
    count(name, well && seen == wanted);
}

/* ---- the calls on numbers */

static imgref_status one_is_image(struct sizes is) {
    tell(imgref_is_image(is.len, is.width, is.height, is.stride) == is_image(is));
    return is_image(is) ? IMGREF_OK : IMGREF_NOT_AN_IMAGE;
}

static imgref_status one_has_window(struct sizes is) {
    struct imgref_window w = any_window(is);
    tell(imgref_has_window(is.width, is.height, w) == is_inside(is, w));
    return is_inside(is, w) ? IMGREF_OK : IMGREF_WINDOW_OUTSIDE;
}

/* A window's first and last cell are found by going over its places. */
static imgref_status one_window(struct sizes is) {
    struct imgref_window w = any_window(is);
    size_t start = 11, len = 12, wanted_start = 11, wanted_len = 12;
    imgref_status wanted = !is_image(is) ? IMGREF_NOT_AN_IMAGE : !is_inside(is, w) ? IMGREF_WINDOW_OUTSIDE : IMGREF_OK;
    if (wanted == IMGREF_OK) {
        size_t first = SIZE_MAX, end = 0;
        if (w.width && w.height)
            for (size_t y = w.top; y < w.top + w.height; y++)
                for (size_t x = w.left; x < w.left + w.width; x++) {
                    size_t cell = y * is.stride + x;
                    first = cell < first ? cell : first;
                    end = cell + 1 > end ? cell + 1 : end;
                }
        wanted_start = end ? first : 0;
        wanted_len = end ? end - first : 0;
    }
    imgref_status status = imgref_window(is.len, is.width, is.height, is.stride, w, &start, &len);
    tell(status == wanted && start == wanted_start && len == wanted_len);
    return status;
}

/* Tiles are counted by going over their corners. */
static imgref_status one_tile(struct sizes is) {
    size_t wide = any() % 9 ? any() % 5 : any_number(), high = any() % 9 ? any() % 5 : any_number();
    size_t number = any() % 40, tiles = 0, given = 99;
    const struct imgref_window before = {5, 6, 7, 8};
    struct imgref_window tile = before, wanted_tile = before;
    bool is_size = !(is.width >> 32) && !(is.height >> 32);
    imgref_status wanted = !is_size ? IMGREF_NOT_AN_IMAGE : wide && high ? IMGREF_OK : IMGREF_NO_TILE;
    if (is.width > 64 || is.height > 64) {
        /* (too many to go over) */
        imgref_status status = imgref_tile_count(is.width, is.height, wide, high, &given);
        tell(status == wanted);
        return status;
    }
    if (wanted == IMGREF_OK)
        for (size_t top = 0; top < is.height; top += high < 64 ? high : 64)
            for (size_t left = 0; left < is.width; left += wide < 64 ? wide : 64) {
                size_t width = is.width - left < wide ? is.width - left : wide, height = is.height - top < high ? is.height - top : high;
                if (tiles++ == number) wanted_tile = (struct imgref_window){left, top, width, height};
            }
    tell(imgref_tile_count(is.width, is.height, wide, high, &given) == wanted && given == (wanted == IMGREF_OK ? tiles : 99));
    if (wanted == IMGREF_OK && number >= tiles) wanted = IMGREF_NO_TILE;
    imgref_status status = imgref_tile(is.width, is.height, wide, high, number, &tile);
    tell(status == wanted && !memcmp(&tile, &wanted_tile, sizeof tile));
    return status;
}

/* ---- the calls on cells */

#define CELL uint8_t
#define OF(name) imgref_u8_##name
#define MINE(name) of_8_##name
#define TEXT "u8 "
#define MEANS
#include "cells.h"

#define CELL uint16_t
#define OF(name) imgref_u16_##name
#define MINE(name) of_16_##name
#define TEXT "u16 "
#define MEANS
#include "cells.h"

#define CELL uint32_t
#define OF(name) imgref_u32_##name
#define MINE(name) of_32_##name
#define TEXT "u32 "
#include "cells.h"

#define CELL uint64_t
#define OF(name) imgref_u64_##name
#define MINE(name) of_64_##name
#define TEXT "u64 "
#include "cells.h"

/* ---- values and sums of images of bytes */

/* The counts of one image, with a number after them that no call may change. */
#define HISTOGRAM(BITS, CELL)                                                                                                \
    static imgref_status one_histogram_##BITS(struct sizes is) {                                                             \
        struct of_##BITS##_image it = of_##BITS##_made(is);                                                                  \
        static uint64_t counts[(1 << BITS) + 1], wanted_counts[(1 << BITS) + 1];                                             \
        for (size_t k = 0; k <= 1 << BITS; k++) counts[k] = wanted_counts[k] = 77;                                           \
        imgref_status wanted = is_image(is) ? IMGREF_OK : IMGREF_NOT_AN_IMAGE;                                               \
        if (wanted == IMGREF_OK) memset(wanted_counts, 0, sizeof(uint64_t) << BITS);                                         \
        if (wanted == IMGREF_OK && is.width)                                                                                 \
            for (size_t y = 0; y < is.height; y++)                                                                           \
                for (size_t x = 0; x < is.width; x++) wanted_counts[of_##BITS##_was(&it, x, y)]++;                           \
        imgref_status status = imgref_u##BITS##_histogram(it.cells, is.len, is.width, is.height, is.stride, counts);         \
        tell(of_##BITS##_left(&it, of_##BITS##_copy(&it), status, wanted) && !memcmp(counts, wanted_counts, sizeof counts)); \
        of_##BITS##_freed(it);                                                                                               \
        return status;                                                                                                       \
    }
HISTOGRAM(8, uint8_t)
HISTOGRAM(16, uint16_t)

/* How many pixels are at most a value is counted for each place anew. */
static imgref_status one_equalize(struct sizes is) {
    struct of_8_image it = of_8_made(is);
    uint8_t *expected = of_8_copy(&it);
    imgref_status wanted = is_image(is) ? IMGREF_OK : IMGREF_NOT_AN_IMAGE;
    if (wanted == IMGREF_OK && is.width)
        for (size_t y = 0; y < is.height; y++)
            for (size_t x = 0; x < is.width; x++) {
                size_t part = 0;
                for (size_t v = 0; v < is.height; v++)
                    for (size_t u = 0; u < is.width; u++) part += of_8_was(&it, u, v) <= of_8_was(&it, x, y);
                of_8_set(expected, &it, x, y, (uint8_t)(255 * part / (is.width * is.height)));
            }
    imgref_status status = imgref_u8_equalize(it.cells, is.len, is.width, is.height, is.stride);
    tell(of_8_left(&it, expected, status, wanted));
    of_8_freed(it);
    return status;
}

/* An image of this size for results, at a stride of its own. Now and then its stride or length is wrong. */
static struct sizes any_results(struct sizes is) {
    struct sizes made = {.width = is.width, .height = is.height, .stride = 1};
    if (is.width < 64 && is.height < 64) made = sized(is.width, is.height);
    if (any() % 8) return made;
    if (any() % 2) made.stride = any_number();
    else made.len -= made.len ? any() % made.len + 1 : 0;
    return made;
}

static imgref_status one_integral(struct sizes is) {
    struct sizes other = any_results(is);
    struct of_8_image it = of_8_made(is);
    struct of_64_image areas = of_64_made(other);
    uint64_t *expected = of_64_copy(&areas);
    imgref_status wanted = !is_image(is) || !is_image(other) ? IMGREF_NOT_AN_IMAGE : IMGREF_OK;
    if (wanted == IMGREF_OK && is.width)
        for (size_t y = 0; y < is.height; y++)
            for (size_t x = 0; x < is.width; x++) {
                uint64_t sum = 0;
                for (size_t v = 0; v <= y; v++)
                    for (size_t u = 0; u <= x; u++) sum += of_8_was(&it, u, v);
                of_64_set(expected, &areas, x, y, sum);
            }
    imgref_status status = imgref_u8_integral(it.cells, is.len, is.width, is.height, is.stride, areas.cells, other.len, other.stride);
    bool kept = of_8_left(&it, of_8_copy(&it), 0, 0);
    tell(of_64_left(&areas, expected, status, wanted) && kept);
    of_8_freed(it);
    of_64_freed(areas);
    return status;
}

/* The numbers of a blur's room: as many as are needed or some more, now and then one too few, and then GUARD that no call may
 * change. */
static size_t any_room(size_t needed) {
    if (any() % 12 == 0) return needed ? any() % needed : 0;
    return needed + any() % 3;
}

/* The mean of the box around each place, by going over all places of the window. */
static imgref_status one_blur(struct sizes is) {
    enum { MOST = 12 * 16 };
    const size_t channels = any_channels();
    struct of_8_image it = of_8_made(is);
    is.width = in_pixels(is, channels);
    const struct imgref_window w = any_window(is);
    const size_t across = any() % 9 ? any() % 6 : any_number(), down = any() % 9 ? any() % 4 : any() % 2 ? 32767 + any() % 2 : any_number();
    uint8_t *expected = of_8_copy(&it), copy[MOST + GUARD], old_copy[MOST + GUARD];
    uint32_t sums[MOST + GUARD], old_sums[MOST + GUARD];
    const bool has_window = is_pixel_image(is, channels) && is_inside(is, w);
    /* (the last cell of the window lies so far from its first) */
    const size_t bytes = has_window && w.width && w.height ? is.stride * (w.height - 1) + w.width * channels : 0, numbers = has_window ? w.width * channels : 0;
    size_t told_bytes = 11, told_numbers = 12;
    imgref_status room = imgref_blur_room(is.len, is.width, is.height, is.stride, channels, w, &told_bytes, &told_numbers);
    imgref_status wanted = !is_pixel_image(is, channels) ? IMGREF_NOT_AN_IMAGE : !is_inside(is, w) ? IMGREF_WINDOW_OUTSIDE : IMGREF_OK;
    tell(room == wanted && told_bytes == (wanted ? 11 : bytes) && told_numbers == (wanted ? 12 : numbers));
    if (bytes > MOST || numbers > MOST) {
        /* (a window of no row, in an image of very long rows) */
        free(expected);
        of_8_freed(it);
        return wanted;
    }
    const size_t copy_len = any_room(bytes), sums_len = any_room(numbers);
    for (size_t k = 0; k < MOST + GUARD; k++) {
        old_copy[k] = copy[k] = (uint8_t)any();
        old_sums[k] = sums[k] = (uint32_t)any();
    }
    wanted = wanted                                        ? wanted
             : across > 32767 || down > 32767              ? IMGREF_TOO_LARGE
             : copy_len < bytes || sums_len < numbers      ? IMGREF_NO_ROOM
                                                           : IMGREF_OK;
    if (wanted == IMGREF_OK && w.width)
        for (size_t y = 0; y < w.height; y++)
            for (size_t x = 0; x < w.width; x++)
                for (size_t k = 0; k < channels; k++) {
                    size_t sum = 0, count = 0;
                    for (size_t v = 0; v < w.height; v++)
                        for (size_t u = 0; u < w.width; u++)
                            if ((u < x ? x - u : u - x) <= across && (v < y ? y - v : v - y) <= down) {
                                sum += of_8_was(&it, (w.left + u) * channels + k, w.top + v);
                                count++;
                            }
                    size_t rest = sum % count;
                    of_8_set(expected, &it, (w.left + x) * channels + k, w.top + y, (uint8_t)(sum / count + (2 * rest >= count)));
                }
    imgref_status status = imgref_u8_blur(it.cells, is.len, is.width, is.height, is.stride, channels, w, across, down, copy, copy_len, sums, sums_len);
    /* (room that isn't asked for stays, and all of it where the call is refused) */
    const size_t used_bytes = wanted ? 0 : copy_len, used_numbers = wanted ? 0 : sums_len;
    const bool kept = !memcmp(copy + used_bytes, old_copy + used_bytes, MOST + GUARD - used_bytes) && !memcmp(sums + used_numbers, old_sums + used_numbers, (MOST + GUARD - used_numbers) * sizeof *sums);
    tell(of_8_left(&it, expected, status, wanted) && kept);
    of_8_freed(it);
    return status;
}

/* ---- rows worked out by hand: 3 by 2 at stride 4, where the cells 3, 7 and 8 are padding */

static void by_hand(void) {
    uint8_t cells[9] = {1, 2, 3, 90, 4, 5, 6, 91, 92}, pixel = 0;
    const struct imgref_window right = {1, 0, 2, 2}, past = {2, 0, 2, 2}, corner = {3, 2, 0, 0};
    count("by hand: get", imgref_u8_get(cells, 9, 3, 2, 4, 2, 1, &pixel) == IMGREF_OK && pixel == 6);
    count("by hand: no such place", imgref_u8_get(cells, 9, 3, 2, 4, 3, 1, &pixel) == IMGREF_PLACE_OUTSIDE && pixel == 6);
    count("by hand: fill", imgref_u8_fill_window(cells, 9, 3, 2, 4, right, 0) == IMGREF_OK && !memcmp(cells, (uint8_t[]){1, 0, 0, 90, 4, 0, 0, 91, 92}, 9));
    count("by hand: past the edge", imgref_u8_fill_window(cells, 9, 3, 2, 4, past, 7) == IMGREF_WINDOW_OUTSIDE && cells[2] == 0);
    count("by hand: empty at the corner", imgref_u8_fill_window(cells, 9, 3, 2, 4, corner, 7) == IMGREF_OK && cells[8] == 92);
    count("by hand: a cell too few", imgref_u8_put(cells, 6, 3, 2, 4, 0, 0, 7) == IMGREF_NOT_AN_IMAGE && cells[0] == 1);
    count("by hand: no product overflows", imgref_u8_put(cells, 9, 3, UINT32_MAX, SIZE_MAX, 0, 0, 7) == IMGREF_NOT_AN_IMAGE && cells[0] == 1);
    count("by hand: pack", imgref_u8_pack(cells, 9, 3, 2, 4) == IMGREF_OK && !memcmp(cells, (uint8_t[]){1, 0, 0, 4, 0, 0, 0, 91, 92}, 9));
    uint8_t colours[8] = {1, 2, 3, 4, 5, 6, 7, 90};
    const uint8_t colour[3] = {21, 22, 23};
    const struct imgref_window second = {1, 0, 1, 1}, both = {0, 0, 2, 1};
    count("by hand: fill_pixels", imgref_u8_fill_pixels(colours, 8, 2, 1, 8, second, colour, 3) == IMGREF_OK && !memcmp(colours, (uint8_t[]){1, 2, 3, 21, 22, 23, 7, 90}, 8));
    count("by hand: mosaic_pixels", imgref_u8_mosaic_pixels(colours, 8, 2, 1, 8, 3, both, 2, 1) == IMGREF_OK && !memcmp(colours, (uint8_t[]){1, 2, 3, 1, 2, 3, 7, 90}, 8));
    uint8_t bytes[9] = {1, 2, 90, 4, 8, 90, 10, 21, 90};
    const struct imgref_window all = {0, 0, 2, 3};
    /* (two tiles: the mean of 1, 2, 4 and 8 is 3.75, and that of 10 and 21 is 15.5) */
    count("by hand: mosaic_means", imgref_u8_mosaic_means(bytes, 9, 2, 3, 3, 1, all, 2, 2) == IMGREF_OK && !memcmp(bytes, (uint8_t[]){4, 4, 90, 4, 4, 90, 16, 16, 90}, 9));
    count("by hand: a pixel of five cells", imgref_u8_mosaic_pixels(colours, 8, 1, 1, 8, 5, second, 2, 1) == IMGREF_NOT_AN_IMAGE && colours[3] == 1);
    count("by hand: no width overflows", imgref_u8_fill_pixels(colours, 8, SIZE_MAX / 2 + 2, 1, 8, second, colour, 2) == IMGREF_NOT_AN_IMAGE && colours[3] == 1);
    const uint8_t turned[8] = {4, 5, 6, 1, 2, 3, 7, 90};
    uint8_t upright[6] = {0};
    count("by hand: flip_columns", imgref_u8_flip_columns(memcpy(colours, (uint8_t[]){1, 2, 3, 4, 5, 6, 7, 90}, 8), 8, 2, 1, 8, 3, both) == IMGREF_OK && !memcmp(colours, turned, 8));
    count("by hand: turn_into", imgref_u8_turn_into(upright, 6, 1, 2, 3, 3, colours, 8, 2, 1, 8, IMGREF_LEFT) == IMGREF_OK && !memcmp(upright, (uint8_t[]){1, 2, 3, 4, 5, 6}, 6));
    count("by hand: no turn", imgref_u8_turn_into(upright, 6, 1, 2, 3, 3, colours, 8, 2, 1, 8, 4) == IMGREF_NO_TURN && upright[0] == 1);
    uint8_t square[8] = {1, 2, 3, 4, 90, 5, 6, 7};
    count("by hand: turn", imgref_u8_turn(square, 8, 1, 2, 5, 2, IMGREF_HALF) == IMGREF_OK && !memcmp(square, (uint8_t[]){5, 6, 3, 4, 90, 1, 2, 7}, 8));
    count("by hand: transpose", imgref_u8_transpose(square, 8, 2, 2, 3, 1) == IMGREF_OK && !memcmp(square, (uint8_t[]){5, 4, 3, 6, 90, 1, 2, 7}, 8));
    count("by hand: no square", imgref_u8_turn(square, 8, 1, 2, 5, 2, IMGREF_RIGHT) == IMGREF_SIZES_DIFFER && square[0] == 5);
    uint8_t low[7] = {10, 10, 20, 99, 30, 20, 20};
    uint64_t sums[6], counts[256];
    count("by hand: histogram", imgref_u8_histogram(low, 7, 3, 2, 4, counts) == IMGREF_OK && counts[10] == 2 && counts[20] == 3 && counts[30] == 1 && counts[99] == 0);
    count("by hand: integral", imgref_u8_integral(low, 7, 3, 2, 4, sums, 6, 3) == IMGREF_OK && !memcmp(sums, (uint64_t[]){10, 20, 40, 40, 70, 110}, sizeof sums));
    count("by hand: equalize", imgref_u8_equalize(low, 7, 3, 2, 4) == IMGREF_OK && !memcmp(low, (uint8_t[]){85, 85, 212, 99, 255, 212, 212}, 7));
    uint8_t grey[7] = {0, 10, 20, 99, 90, 40, 30}, copy[7];
    uint32_t box_sums[3];
    const struct imgref_window three = {0, 0, 3, 2};
    /* (the boxes have 4, 6 and 4 pixels: their means are 35, 31.67 and 25) */
    count("by hand: blur", imgref_u8_blur(grey, 7, 3, 2, 4, 1, three, 1, 1, copy, 7, box_sums, 3) == IMGREF_OK && !memcmp(grey, (uint8_t[]){35, 32, 25, 99, 35, 32, 25}, 7));
    count("by hand: no room for the copy", imgref_u8_blur(grey, 7, 3, 2, 4, 1, three, 1, 1, copy, 6, box_sums, 3) == IMGREF_NO_ROOM && grey[1] == 32);
    count("by hand: no room for the sums", imgref_u8_blur(grey, 7, 3, 2, 4, 1, three, 1, 1, copy, 7, box_sums, 2) == IMGREF_NO_ROOM && grey[1] == 32);
    count("by hand: a blur of 2^15", imgref_u8_blur(grey, 7, 3, 2, 4, 1, three, 1, 32768, copy, 7, box_sums, 3) == IMGREF_TOO_LARGE && grey[1] == 32);
    /* Without channels single cells are gone over: so three bytes of a colour mix. */
    uint8_t rgb[6] = {200, 0, 7, 7, 0, 200};
    size_t places[6];
    uint64_t labels[6], regions = 0;
    imgref_rect around;
    count("by hand: flood_fill mixes channels", imgref_u8_flood_fill(rgb, 6, 6, 1, 6, 2, 0, 9, places, 6) == IMGREF_OK && !memcmp(rgb, (uint8_t[]){200, 0, 9, 9, 0, 200}, 6));
    count("by hand: components mixes channels", imgref_u8_components(rgb, 6, 6, 1, 6, labels, 6, 6, places, 6, &regions) == IMGREF_OK && regions == 5 && labels[2] == labels[3]);
    count("by hand: bounding_box mixes channels", imgref_u8_bounding_box(rgb, 6, 6, 1, 6, 200, &around) == IMGREF_OK && around.left == 0 && around.width == 6);
    count("by hand: histogram mixes channels", imgref_u8_histogram(rgb, 6, 6, 1, 6, counts) == IMGREF_OK && counts[9] == 2 && counts[200] == 2);
    count("by hand: integral mixes channels", imgref_u8_integral(rgb, 6, 6, 1, 6, labels, 6, 6) == IMGREF_OK && labels[5] == 418);
    count("by hand: mosaic mixes channels", imgref_u8_mosaic(rgb, 6, 2, 1, 6, (struct imgref_window){0, 0, 2, 1}, 2, 1) == IMGREF_OK && !memcmp(rgb, (uint8_t[]){200, 200, 9, 9, 0, 200}, 6));
    count("by hand: equalize mixes channels", imgref_u8_equalize(rgb, 6, 6, 1, 6) == IMGREF_OK && !memcmp(rgb, (uint8_t[]){255, 255, 127, 127, 42, 255}, 6));
    count("by hand: no cell", imgref_u8_fill_window(&pixel, 0, 0, 5, 1, (struct imgref_window){0, 2, 0, 3}, 7) == IMGREF_OK && pixel == 6);
}

/* The longest row that a call with `channels` takes: width * channels is below 2^32. Its cells are there once they are touched. */
static void longest_row(void) {
    const size_t cells = (size_t)1 << 32;
    uint8_t *row = mmap(NULL, cells, PROT_READ | PROT_WRITE, MAP_PRIVATE | MAP_ANONYMOUS | MAP_NORESERVE, -1, 0);
    if (row == MAP_FAILED) {
        printf("the longest row: 2 skipped, no 4 GB of addresses\n");
        return;
    }
    const uint8_t pixel[4] = {1, 2, 3, 4};
    const struct imgref_window last = {cells / 4 - 2, 0, 1, 1};
    count("width * channels is 2^32", imgref_u8_fill_pixels(row, cells, cells / 4, 1, cells, last, pixel, 4) == IMGREF_NOT_AN_IMAGE && !row[cells - 8]);
    count("width * channels is 2^32 - 4", imgref_u8_fill_pixels(row, cells, cells / 4 - 1, 1, cells, last, pixel, 4) == IMGREF_OK && !memcmp(row + cells - 9, "\0\1\2\3\4\0", 6));
    munmap(row, cells);
}

int main(void) {
    by_hand();
    longest_row();
    series("is_image", one_is_image, 1u << IMGREF_OK | 1u << IMGREF_NOT_AN_IMAGE);
    series("has_window", one_has_window, 1u << IMGREF_OK | 1u << IMGREF_WINDOW_OUTSIDE);
    series("window", one_window, 1u << IMGREF_OK | 1u << IMGREF_NOT_AN_IMAGE | 1u << IMGREF_WINDOW_OUTSIDE);
    series("tile_count and tile", one_tile, 1u << IMGREF_OK | 1u << IMGREF_NOT_AN_IMAGE | 1u << IMGREF_NO_TILE);
    of_8_all_calls();
    of_16_all_calls();
    of_32_all_calls();
    of_64_all_calls();
    series("u8 histogram", one_histogram_8, 1u << IMGREF_OK | 1u << IMGREF_NOT_AN_IMAGE);
    series("u16 histogram", one_histogram_16, 1u << IMGREF_OK | 1u << IMGREF_NOT_AN_IMAGE);
    series("u8 equalize", one_equalize, 1u << IMGREF_OK | 1u << IMGREF_NOT_AN_IMAGE);
    series("u8 integral", one_integral, 1u << IMGREF_OK | 1u << IMGREF_NOT_AN_IMAGE);
    series("u8 blur", one_blur, 1u << IMGREF_OK | 1u << IMGREF_NOT_AN_IMAGE | 1u << IMGREF_WINDOW_OUTSIDE | 1u << IMGREF_TOO_LARGE | 1u << IMGREF_NO_ROOM);
    printf("%u passed, %u failed\n", passed, failed);
    return failed || !passed;
}
