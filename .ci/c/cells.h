/* The calls on one type of cell, each beside a model that goes place by place. Included once for each type, with CELL (the
 * type), OF (a call's name) and MINE (a name of this file's for it), and MEANS where means are taken of the type. */

/* A random image in a room. At one end of it are cells that no call may change, and at the other end is a page that no call may
 * even read. */
struct MINE(image) {
    CELL *list, *old, *cells;
    size_t before, all;
    struct sizes is;
};

static struct MINE(image) MINE(made)(struct sizes is) {
    struct MINE(image) made = {.is = is, .all = is.len + GUARD, .before = any() % 2 ? GUARD : 0};
    if (made.all * sizeof(CELL) > ROOM) abort();
    CELL *room = (CELL *)next_room();
    made.list = made.before ? room + ROOM / sizeof(CELL) - made.all : room;
    made.old = malloc(made.all * sizeof(CELL));
    if (!made.old) abort();
    for (size_t k = 0; k < made.all; k++) {
        size_t bits = any();
        made.list[k] = (CELL)(bits % 3 ? bits / 3 : bits / 3 % 4);
    }
    memcpy(made.old, made.list, made.all * sizeof(CELL));
    made.cells = made.list + made.before;
    return made;
}

static void MINE(freed)(struct MINE(image) it) { free(it.old); }

/* What the model says that the pixel in column x of row y was. */
static CELL MINE(was)(const struct MINE(image) *it, size_t x, size_t y) { return it->old[it->before + y * it->is.stride + x]; }

static void MINE(set)(CELL *cells, const struct MINE(image) *it, size_t x, size_t y, CELL value) {
    cells[it->before + y * it->is.stride + x] = value;
}

/* Whether the call returned this and left these cells, guards included. Frees the expected list. */
static bool MINE(left)(const struct MINE(image) *it, CELL *expected, imgref_status status, imgref_status wanted) {
    bool well = status == wanted && !memcmp(it->list, expected, it->all * sizeof(CELL));
    free(expected);
    return well;
}

static CELL *MINE(copy)(const struct MINE(image) *it) {
    size_t bytes = it->all * sizeof(CELL);
    CELL *copied = malloc(bytes);
    if (!copied) abort();
    return memcpy(copied, it->old, bytes);
}

static imgref_status MINE(one_get)(struct sizes is) {
    struct MINE(image) it = MINE(made)(is);
    size_t x = near(is.width), y = near(is.height);
    CELL pixel = 77, wanted_pixel = 77;
    imgref_status wanted = !is_image(is) ? IMGREF_NOT_AN_IMAGE : x < is.width && y < is.height ? IMGREF_OK : IMGREF_PLACE_OUTSIDE;
    if (wanted == IMGREF_OK) wanted_pixel = MINE(was)(&it, x, y);
    imgref_status status = OF(get)(it.cells, is.len, is.width, is.height, is.stride, x, y, &pixel);
    tell(MINE(left)(&it, MINE(copy)(&it), status, wanted) && pixel == wanted_pixel);
    MINE(freed)(it);
    return status;
}

static imgref_status MINE(one_put)(struct sizes is) {
    struct MINE(image) it = MINE(made)(is);
    size_t x = near(is.width), y = near(is.height);
    CELL value = (CELL)any(), *expected = MINE(copy)(&it);
    imgref_status wanted = !is_image(is) ? IMGREF_NOT_AN_IMAGE : x < is.width && y < is.height ? IMGREF_OK : IMGREF_PLACE_OUTSIDE;
    if (wanted == IMGREF_OK) MINE(set)(expected, &it, x, y, value);
    imgref_status status = OF(put)(it.cells, is.len, is.width, is.height, is.stride, x, y, value);
    tell(MINE(left)(&it, expected, status, wanted));
    MINE(freed)(it);
    return status;
}

static imgref_status MINE(one_fill_window)(struct sizes is) {
    struct MINE(image) it = MINE(made)(is);
    struct imgref_window w = any_window(is);
    CELL value = (CELL)any(), *expected = MINE(copy)(&it);
    imgref_status wanted = !is_image(is) ? IMGREF_NOT_AN_IMAGE : !is_inside(is, w) ? IMGREF_WINDOW_OUTSIDE : IMGREF_OK;
    if (wanted == IMGREF_OK && w.width)
        for (size_t y = 0; y < w.height; y++)
            for (size_t x = 0; x < w.width; x++) MINE(set)(expected, &it, w.left + x, w.top + y, value);
    imgref_status status = OF(fill_window)(it.cells, is.len, is.width, is.height, is.stride, w, value);
    tell(MINE(left)(&it, expected, status, wanted));
    MINE(freed)(it);
    return status;
}

static imgref_status MINE(one_copy_window)(struct sizes is) {
    struct imgref_window w = any_window(is);
    struct sizes other = any() % 4 ? sized(w.width % 64, w.height % 64) : any_sizes();
    struct MINE(image) it = MINE(made)(is), source = MINE(made)(other);
    CELL *expected = MINE(copy)(&it);
    imgref_status wanted = !is_image(is) || !is_image(other)                             ? IMGREF_NOT_AN_IMAGE
                           : !is_inside(is, w)                                           ? IMGREF_WINDOW_OUTSIDE
                           : w.width != other.width || w.height != other.height          ? IMGREF_SIZES_DIFFER
                                                                                         : IMGREF_OK;
    if (wanted == IMGREF_OK && w.width)
        for (size_t y = 0; y < w.height; y++)
            for (size_t x = 0; x < w.width; x++) MINE(set)(expected, &it, w.left + x, w.top + y, MINE(was)(&source, x, y));
    imgref_status status = OF(copy_window)(it.cells, is.len, is.width, is.height, is.stride, w, source.cells, other.len, other.width,
                                           other.height, other.stride);
    bool kept = MINE(left)(&source, MINE(copy)(&source), 0, 0);
    tell(MINE(left)(&it, expected, status, wanted) && kept);
    MINE(freed)(it);
    MINE(freed)(source);
    return status;
}

static imgref_status MINE(one_move_window)(struct sizes is) {
    struct MINE(image) it = MINE(made)(is);
    struct imgref_window from = any_window(is), to = any_window(is);
    if (any() % 4) {
        to.width = from.width;
        to.height = from.height;
        to.left = is.width >= to.width ? up_to(is.width - to.width) : 0;
        to.top = is.height >= to.height ? up_to(is.height - to.height) : 0;
    }
    CELL *expected = MINE(copy)(&it);
    imgref_status wanted = !is_image(is)                                                ? IMGREF_NOT_AN_IMAGE
                           : !is_inside(is, from) || !is_inside(is, to)                 ? IMGREF_WINDOW_OUTSIDE
                           : from.width != to.width || from.height != to.height         ? IMGREF_SIZES_DIFFER
                                                                                        : IMGREF_OK;
    if (wanted == IMGREF_OK && to.width)
        for (size_t y = 0; y < to.height; y++)
            for (size_t x = 0; x < to.width; x++) MINE(set)(expected, &it, to.left + x, to.top + y, MINE(was)(&it, from.left + x, from.top + y));
    imgref_status status = OF(move_window)(it.cells, is.len, is.width, is.height, is.stride, from, to);
    tell(MINE(left)(&it, expected, status, wanted));
    MINE(freed)(it);
    return status;
}

static imgref_status MINE(one_mosaic)(struct sizes is) {
    struct MINE(image) it = MINE(made)(is);
    struct imgref_window w = any_window(is);
    size_t wide = any() % 9 ? any() % 5 : any_number(), high = any() % 9 ? any() % 5 : any_number();
    CELL *expected = MINE(copy)(&it);
    imgref_status wanted = !is_image(is)           ? IMGREF_NOT_AN_IMAGE
                           : !is_inside(is, w)     ? IMGREF_WINDOW_OUTSIDE
                           : wide == 0 || high == 0 ? IMGREF_NO_TILE
                                                   : IMGREF_OK;
    if (wanted == IMGREF_OK && w.width)
        for (size_t y = 0; y < w.height; y++)
            for (size_t x = 0; x < w.width; x++)
                MINE(set)(expected, &it, w.left + x, w.top + y, MINE(was)(&it, w.left + x / wide * wide, w.top + y / high * high));
    imgref_status status = OF(mosaic)(it.cells, is.len, is.width, is.height, is.stride, w, wide, high);
    tell(MINE(left)(&it, expected, status, wanted));
    MINE(freed)(it);
    return status;
}

static imgref_status MINE(one_fill_pixels)(struct sizes is) {
    size_t channels = any_channels();
    struct MINE(image) it = MINE(made)(is);
    is.width = in_pixels(is, channels);
    struct imgref_window w = any_window(is);
    CELL pixel[8], *expected = MINE(copy)(&it);
    for (size_t k = 0; k < 8; k++) pixel[k] = (CELL)any();
    imgref_status wanted = !is_pixel_image(is, channels) ? IMGREF_NOT_AN_IMAGE : !is_inside(is, w) ? IMGREF_WINDOW_OUTSIDE : IMGREF_OK;
    if (wanted == IMGREF_OK && w.width)
        for (size_t y = 0; y < w.height; y++)
            for (size_t x = 0; x < w.width; x++)
                for (size_t k = 0; k < channels; k++) MINE(set)(expected, &it, (w.left + x) * channels + k, w.top + y, pixel[k]);
    imgref_status status = OF(fill_pixels)(it.cells, is.len, is.width, is.height, is.stride, w, pixel, channels);
    tell(MINE(left)(&it, expected, status, wanted));
    MINE(freed)(it);
    return status;
}

static imgref_status MINE(one_mosaic_pixels)(struct sizes is) {
    size_t channels = any_channels(), wide = any() % 9 ? any() % 5 : any_number(), high = any() % 9 ? any() % 5 : any_number();
    struct MINE(image) it = MINE(made)(is);
    is.width = in_pixels(is, channels);
    struct imgref_window w = any_window(is);
    CELL *expected = MINE(copy)(&it);
    imgref_status wanted = !is_pixel_image(is, channels) ? IMGREF_NOT_AN_IMAGE
                           : !is_inside(is, w)           ? IMGREF_WINDOW_OUTSIDE
                           : wide == 0 || high == 0      ? IMGREF_NO_TILE
                                                         : IMGREF_OK;
    if (wanted == IMGREF_OK && w.width)
        for (size_t y = 0; y < w.height; y++)
            for (size_t x = 0; x < w.width; x++)
                for (size_t k = 0; k < channels; k++)
                    MINE(set)(expected, &it, (w.left + x) * channels + k, w.top + y,
                              MINE(was)(&it, (w.left + x / wide * wide) * channels + k, w.top + y / high * high));
    imgref_status status = OF(mosaic_pixels)(it.cells, is.len, is.width, is.height, is.stride, channels, w, wide, high);
    tell(MINE(left)(&it, expected, status, wanted));
    MINE(freed)(it);
    return status;
}

/* Values of few kinds, so that some pixels have the value that is asked for. */
static imgref_status MINE(one_count)(struct sizes is) {
    size_t channels = any_channels(), given = 99, wanted_count = 99;
    struct MINE(image) it = MINE(made)(is);
    for (size_t k = 0; k < is.len; k++) it.cells[k] = (CELL)(it.cells[k] % 2);
    memcpy(it.old, it.list, it.all * sizeof(CELL));
    is.width = in_pixels(is, channels);
    struct imgref_window w = any_window(is);
    CELL value[8];
    for (size_t k = 0; k < 8; k++) value[k] = (CELL)(any() % 2);
    imgref_status wanted = !is_pixel_image(is, channels) ? IMGREF_NOT_AN_IMAGE : !is_inside(is, w) ? IMGREF_WINDOW_OUTSIDE : IMGREF_OK;
    if (wanted == IMGREF_OK) wanted_count = 0;
    if (wanted == IMGREF_OK && w.width)
        for (size_t y = 0; y < w.height; y++)
            for (size_t x = 0; x < w.width; x++) {
                bool is_value = true;
                for (size_t k = 0; k < channels; k++) is_value = is_value && MINE(was)(&it, (w.left + x) * channels + k, w.top + y) == value[k];
                wanted_count += is_value;
            }
    imgref_status status = OF(count)(it.cells, is.len, is.width, is.height, is.stride, w, value, channels, &given);
    tell(MINE(left)(&it, MINE(copy)(&it), status, wanted) && given == wanted_count);
    MINE(freed)(it);
    return status;
}

/* A turn, or with `is_turn` false a transposition: the model says for each place which pixel of the source it shows. */
static imgref_status MINE(one_oriented)(struct sizes is, bool is_turn) {
    size_t channels = any_channels();
    imgref_turn turn = any() % 8 ? (imgref_turn)(1 + any() % 3) : (imgref_turn)any_number();
    struct MINE(image) it = MINE(made)(is);
    is.width = in_pixels(is, channels);
    bool is_across = !is_turn || turn != IMGREF_HALF;
    size_t wide = is_across ? is.height : is.width, high = is_across ? is.width : is.height;
    struct sizes other = any() % 4 && wide < 64 && high < 64 ? sized(wide * channels, high) : any_sizes();
    struct MINE(image) source = MINE(made)(other);
    other.width = in_pixels(other, channels);
    CELL *expected = MINE(copy)(&it);
    imgref_status wanted = is_turn && (turn < 1 || turn > 3)                                       ? IMGREF_NO_TURN
                           : !is_pixel_image(is, channels) || !is_pixel_image(other, channels)     ? IMGREF_NOT_AN_IMAGE
                           : is.width != (is_across ? other.height : other.width)                  ? IMGREF_SIZES_DIFFER
                           : is.height != (is_across ? other.width : other.height)                 ? IMGREF_SIZES_DIFFER
                                                                                                   : IMGREF_OK;
    if (wanted == IMGREF_OK && is.width)
        for (size_t y = 0; y < is.height; y++)
            for (size_t x = 0; x < is.width; x++) {
                size_t u = !is_turn || turn == IMGREF_RIGHT ? y : other.width - 1 - (turn == IMGREF_HALF ? x : y);
                size_t v = !is_turn || turn == IMGREF_LEFT ? x : other.height - 1 - (turn == IMGREF_HALF ? y : x);
                for (size_t k = 0; k < channels; k++) MINE(set)(expected, &it, x * channels + k, y, MINE(was)(&source, u * channels + k, v));
            }
    imgref_status status = is_turn ? OF(turn_into)(it.cells, is.len, is.width, is.height, is.stride, channels, source.cells, other.len, other.width,
                                                   other.height, other.stride, turn)
                                   : OF(transpose_into)(it.cells, is.len, is.width, is.height, is.stride, channels, source.cells, other.len,
                                                        other.width, other.height, other.stride);
    bool kept = MINE(left)(&source, MINE(copy)(&source), 0, 0);
    tell(MINE(left)(&it, expected, status, wanted) && kept);
    MINE(freed)(it);
    MINE(freed)(source);
    return status;
}

static imgref_status MINE(one_turn_into)(struct sizes is) { return MINE(one_oriented)(is, true); }
static imgref_status MINE(one_transpose_into)(struct sizes is) { return MINE(one_oriented)(is, false); }

/* The same in place. */
static imgref_status MINE(one_oriented_in_place)(struct sizes is, bool is_turn) {
    size_t channels = any_channels();
    imgref_turn turn = any() % 8 ? (imgref_turn)(1 + any() % 3) : (imgref_turn)any_number();
    bool is_across = !is_turn || turn != IMGREF_HALF;
    if (is_across && any() % 4) {
        size_t side = any() % 8 ? any() % 12 : any() % 40;
        is = sized(side * channels, side);
    }
    struct MINE(image) it = MINE(made)(is);
    is.width = in_pixels(is, channels);
    CELL *expected = MINE(copy)(&it);
    imgref_status wanted = is_turn && (turn < 1 || turn > 3)       ? IMGREF_NO_TURN
                           : !is_pixel_image(is, channels)         ? IMGREF_NOT_AN_IMAGE
                           : is_across && is.width != is.height    ? IMGREF_SIZES_DIFFER
                                                                   : IMGREF_OK;
    if (wanted == IMGREF_OK && is.width)
        for (size_t y = 0; y < is.height; y++)
            for (size_t x = 0; x < is.width; x++) {
                size_t u = !is_turn || turn == IMGREF_RIGHT ? y : is.width - 1 - (turn == IMGREF_HALF ? x : y);
                size_t v = !is_turn || turn == IMGREF_LEFT ? x : is.height - 1 - (turn == IMGREF_HALF ? y : x);
                for (size_t k = 0; k < channels; k++) MINE(set)(expected, &it, x * channels + k, y, MINE(was)(&it, u * channels + k, v));
            }
    imgref_status status = is_turn ? OF(turn)(it.cells, is.len, is.width, is.height, is.stride, channels, turn)
                                   : OF(transpose)(it.cells, is.len, is.width, is.height, is.stride, channels);
    tell(MINE(left)(&it, expected, status, wanted));
    MINE(freed)(it);
    return status;
}

static imgref_status MINE(one_turn)(struct sizes is) { return MINE(one_oriented_in_place)(is, true); }
static imgref_status MINE(one_transpose)(struct sizes is) { return MINE(one_oriented_in_place)(is, false); }

static imgref_status MINE(one_flipped)(struct sizes is, bool is_rows) {
    size_t channels = any_channels();
    struct MINE(image) it = MINE(made)(is);
    is.width = in_pixels(is, channels);
    struct imgref_window w = any_window(is);
    CELL *expected = MINE(copy)(&it);
    imgref_status wanted = !is_pixel_image(is, channels) ? IMGREF_NOT_AN_IMAGE : !is_inside(is, w) ? IMGREF_WINDOW_OUTSIDE : IMGREF_OK;
    if (wanted == IMGREF_OK && w.width)
        for (size_t y = 0; y < w.height; y++)
            for (size_t x = 0; x < w.width; x++)
                for (size_t k = 0; k < channels; k++)
                    MINE(set)(expected, &it, (w.left + x) * channels + k, w.top + y,
                              MINE(was)(&it, (w.left + (is_rows ? x : w.width - 1 - x)) * channels + k, w.top + (is_rows ? w.height - 1 - y : y)));
    imgref_status status = is_rows ? OF(flip_rows)(it.cells, is.len, is.width, is.height, is.stride, channels, w)
                                   : OF(flip_columns)(it.cells, is.len, is.width, is.height, is.stride, channels, w);
    tell(MINE(left)(&it, expected, status, wanted));
    MINE(freed)(it);
    return status;
}

static imgref_status MINE(one_flip_rows)(struct sizes is) { return MINE(one_flipped)(is, true); }
static imgref_status MINE(one_flip_columns)(struct sizes is) { return MINE(one_flipped)(is, false); }

static imgref_status MINE(one_swap_rows)(struct sizes is) {
    size_t channels = any_channels(), y = near(is.height), z = near(is.height);
    struct MINE(image) it = MINE(made)(is);
    is.width = in_pixels(is, channels);
    CELL *expected = MINE(copy)(&it);
    imgref_status wanted = !is_pixel_image(is, channels) ? IMGREF_NOT_AN_IMAGE : y < is.height && z < is.height ? IMGREF_OK : IMGREF_PLACE_OUTSIDE;
    if (wanted == IMGREF_OK)
        for (size_t x = 0; x < is.width * channels; x++) {
            MINE(set)(expected, &it, x, y, MINE(was)(&it, x, z));
            MINE(set)(expected, &it, x, z, MINE(was)(&it, x, y));
        }
    imgref_status status = OF(swap_rows)(it.cells, is.len, is.width, is.height, is.stride, channels, y, z);
    tell(MINE(left)(&it, expected, status, wanted));
    MINE(freed)(it);
    return status;
}

#ifdef MEANS
static imgref_status MINE(one_mosaic_means)(struct sizes is) {
    size_t channels = any_channels(), wide = any() % 9 ? any() % 5 : any_number(), high = any() % 9 ? any() % 5 : any_number();
    struct MINE(image) it = MINE(made)(is);
    is.width = in_pixels(is, channels);
    struct imgref_window w = any_window(is);
    CELL *expected = MINE(copy)(&it);
    imgref_status wanted = !is_pixel_image(is, channels) ? IMGREF_NOT_AN_IMAGE
                           : !is_inside(is, w)           ? IMGREF_WINDOW_OUTSIDE
                           : wide == 0 || high == 0      ? IMGREF_NO_TILE
                                                         : IMGREF_OK;
    if (wanted == IMGREF_OK && w.width)
        for (size_t y = 0; y < w.height; y++)
            for (size_t x = 0; x < w.width; x++)
                for (size_t k = 0; k < channels; k++) {
                    /* (all pixels of the window that lie in the same tile) */
                    size_t sum = 0, count = 0;
                    for (size_t v = 0; v < w.height; v++)
                        for (size_t u = 0; u < w.width; u++)
                            if (u / wide == x / wide && v / high == y / high) {
                                sum += MINE(was)(&it, (w.left + u) * channels + k, w.top + v);
                                count++;
                            }
                    size_t rest = sum % count;
                    MINE(set)(expected, &it, (w.left + x) * channels + k, w.top + y, (CELL)(sum / count + (2 * rest >= count)));
                }
    imgref_status status = OF(mosaic_means)(it.cells, is.len, is.width, is.height, is.stride, channels, w, wide, high);
    tell(MINE(left)(&it, expected, status, wanted));
    MINE(freed)(it);
    return status;
}
#endif

static imgref_status MINE(one_pack)(struct sizes is) {
    struct MINE(image) it = MINE(made)(is);
    CELL *expected = MINE(copy)(&it);
    imgref_status wanted = is_image(is) ? IMGREF_OK : IMGREF_NOT_AN_IMAGE;
    size_t k = it.before;
    if (wanted == IMGREF_OK && is.width)
        for (size_t y = 0; y < is.height; y++)
            for (size_t x = 0; x < is.width; x++) expected[k++] = MINE(was)(&it, x, y);
    imgref_status status = OF(pack)(it.cells, is.len, is.width, is.height, is.stride);
    tell(MINE(left)(&it, expected, status, wanted));
    MINE(freed)(it);
    return status;
}

static imgref_status MINE(one_equal)(struct sizes is) {
    struct sizes other = any() % 4 && is.width < 64 && is.height < 64 ? sized(is.width, is.height) : any_sizes();
    struct MINE(image) it = MINE(made)(is), second = MINE(made)(other);
    imgref_status wanted = is_image(is) && is_image(other) ? IMGREF_OK : IMGREF_NOT_AN_IMAGE;
    bool same_size = is.width == other.width && is.height == other.height, before = any() % 2, equal = before, wanted_equal = before;
    if (wanted == IMGREF_OK && same_size && is.width) {
        /* the second image has the pixels of the first, and now and then one that differs */
        for (size_t y = 0; y < is.height; y++)
            for (size_t x = 0; x < is.width; x++) MINE(set)(second.list, &second, x, y, MINE(was)(&it, x, y));
        if (is.height && any() % 2) second.cells[any() % is.height * other.stride + any() % is.width] ^= (CELL)((CELL)1 << any() % (8 * sizeof(CELL)));
        memcpy(second.old, second.list, second.all * sizeof(CELL));
    }
    if (wanted == IMGREF_OK) {
        wanted_equal = same_size;
        if (same_size && is.width)
            for (size_t y = 0; y < is.height; y++)
                for (size_t x = 0; x < is.width; x++) wanted_equal = wanted_equal && MINE(was)(&it, x, y) == MINE(was)(&second, x, y);
    }
    imgref_status status = OF(equal)(it.cells, is.len, is.width, is.height, is.stride, second.cells, other.len, other.width, other.height,
                                     other.stride, &equal);
    bool kept = MINE(left)(&second, MINE(copy)(&second), 0, 0);
    tell(MINE(left)(&it, MINE(copy)(&it), status, wanted) && equal == wanted_equal && kept);
    MINE(freed)(it);
    MINE(freed)(second);
    return status;
}

/* Pixels of few values, so that some are connected. */
static struct MINE(image) MINE(made_of_few)(struct sizes is) {
    struct MINE(image) it = MINE(made)(is);
    const size_t values = 1 + any() % 3;
    for (size_t k = 0; k < is.len; k++) it.cells[k] = (CELL)(it.cells[k] % values);
    memcpy(it.old, it.list, it.all * sizeof(CELL));
    return it;
}

/* Which places are connected with one is found by going over all places, as often as one more is found. */
static void MINE(find_connected)(const struct MINE(image) *it, size_t x, size_t y, bool *found) {
    const size_t width = it->is.width, height = it->is.height;
    bool goes_on = true;
    memset(found, 0, width * height);
    found[y * width + x] = true;
    while (goes_on) {
        goes_on = false;
        for (size_t v = 0; v < height; v++)
            for (size_t u = 0; u < width; u++) {
                bool *is = &found[v * width + u];
                bool beside = (u && is[-1]) || (u + 1 < width && is[1]) || (v && *(is - width)) || (v + 1 < height && is[width]);
                if (!*is && beside && MINE(was)(it, u, v) == MINE(was)(it, x, y)) goes_on = *is = true;
            }
    }
}

/* A room, now and then with a number too few, whose last number no call may change. */
static size_t *MINE(room_of)(struct sizes is, size_t *len) {
    *len = is.width < 64 && is.height < 64 ? is.width * is.height : 0;
    *len = any() % 8 ? *len + any() % 3 : *len - (*len ? any() % *len : 0);
    size_t *room = malloc((*len + 1) * sizeof *room);
    if (!room) abort();
    for (size_t k = 0; k <= *len; k++) room[k] = 77;
    return room;
}

static bool MINE(has_room)(struct sizes is, size_t len) { return (unsigned __int128)is.width * is.height <= len; }

static imgref_status MINE(one_flood_fill)(struct sizes is) {
    struct MINE(image) it = MINE(made_of_few)(is);
    size_t x = near(is.width), y = near(is.height), len, *room = MINE(room_of)(is, &len);
    CELL value = (CELL)(any() % 4), *expected = MINE(copy)(&it);
    bool found[144];
    imgref_status wanted = !is_image(is)                              ? IMGREF_NOT_AN_IMAGE
                           : x >= is.width || y >= is.height          ? IMGREF_PLACE_OUTSIDE
                           : !MINE(has_room)(is, len)                 ? IMGREF_NO_ROOM
                                                                      : IMGREF_OK;
    if (wanted == IMGREF_OK) {
        MINE(find_connected)(&it, x, y, found);
        for (size_t v = 0; v < is.height; v++)
            for (size_t u = 0; u < is.width; u++)
                if (found[v * is.width + u]) MINE(set)(expected, &it, u, v, value);
    }
    imgref_status status = OF(flood_fill)(it.cells, is.len, is.width, is.height, is.stride, x, y, value, room, len);
    tell(MINE(left)(&it, expected, status, wanted) && room[len] == 77);
    free(room);
    MINE(freed)(it);
    return status;
}

/* The labels are numbers of eight bytes between cells that no call may change. Each place is compared with each. */
static imgref_status MINE(one_components)(struct sizes is) {
    struct MINE(image) it = MINE(made_of_few)(is);
    size_t len, *room = MINE(room_of)(is, &len), labels_stride = is.width < 64 ? is.width + any() % 3 : is.width;
    labels_stride += !labels_stride;
    size_t labels_len = is.width && is.height && is.width < 64 && is.height < 64 ? labels_stride * (is.height - 1) + is.width : 0;
    if (any() % 8 == 0) labels_len -= labels_len ? any() % labels_len : 0;
    uint64_t labels[GUARD * 14], before[GUARD * 14], regions = 88;
    for (size_t k = 0; k < GUARD * 14; k++) before[k] = labels[k] = any();
    struct sizes other = {.len = labels_len, .width = is.width, .height = is.height, .stride = labels_stride};
    imgref_status wanted = !is_image(is) || !is_image(other) ? IMGREF_NOT_AN_IMAGE : !MINE(has_room)(is, len) ? IMGREF_NO_ROOM : IMGREF_OK;
    imgref_status status = OF(components)(it.cells, is.len, is.width, is.height, is.stride, labels + GUARD, labels_len, labels_stride, room, len, &regions);
    bool is_well = MINE(left)(&it, MINE(copy)(&it), status, wanted) && room[len] == 77;
    if (wanted == IMGREF_OK) {
        bool found[144];
        uint64_t most = 0;
        const size_t rows = is.width ? is.height : 0;
        for (size_t y = 0; y < rows; y++)
            for (size_t x = 0; x < is.width; x++) {
                const uint64_t label = labels[GUARD + y * labels_stride + x];
                MINE(find_connected)(&it, x, y, found);
                for (size_t v = 0; v < is.height; v++)
                    for (size_t u = 0; u < is.width; u++) is_well = is_well && found[v * is.width + u] == (labels[GUARD + v * labels_stride + u] == label);
                /* (the first place of each region gets the next label) */
                is_well = is_well && label >= 1 && label <= most + 1;
                most = label > most ? label : most;
            }
        is_well = is_well && regions == most;
        for (size_t y = 0; y < rows; y++)
            for (size_t x = 0; x < is.width; x++) labels[GUARD + y * labels_stride + x] = before[GUARD + y * labels_stride + x];
    } else is_well = is_well && regions == 88;
    tell(is_well && !memcmp(labels, before, sizeof labels));
    free(room);
    MINE(freed)(it);
    return status;
}

static imgref_status MINE(one_bounding_box)(struct sizes is) {
    struct MINE(image) it = MINE(made_of_few)(is);
    const struct imgref_window before = {5, 6, 7, 8};
    struct imgref_window around = before, wanted_around = before;
    CELL value = (CELL)(any() % 4);
    imgref_status wanted = is_image(is) ? IMGREF_OK : IMGREF_NOT_AN_IMAGE;
    if (wanted == IMGREF_OK) {
        size_t left = SIZE_MAX, top = SIZE_MAX, right = 0, bottom = 0;
        if (is.width)
            for (size_t y = 0; y < is.height; y++)
                for (size_t x = 0; x < is.width; x++)
                    if (MINE(was)(&it, x, y) == value) {
                        left = x < left ? x : left;
                        top = y < top ? y : top;
                        right = x > right ? x : right;
                        bottom = y;
                    }
        wanted_around = left == SIZE_MAX ? (struct imgref_window){0, 0, 0, 0} : (struct imgref_window){left, top, right - left + 1, bottom - top + 1};
    }
    imgref_status status = OF(bounding_box)(it.cells, is.len, is.width, is.height, is.stride, value, &around);
    tell(MINE(left)(&it, MINE(copy)(&it), status, wanted) && !memcmp(&around, &wanted_around, sizeof around));
    MINE(freed)(it);
    return status;
}

static void MINE(all_calls)(void) {
    series(TEXT "get", MINE(one_get), 1u << IMGREF_OK | 1u << IMGREF_NOT_AN_IMAGE | 1u << IMGREF_PLACE_OUTSIDE);
    series(TEXT "put", MINE(one_put), 1u << IMGREF_OK | 1u << IMGREF_NOT_AN_IMAGE | 1u << IMGREF_PLACE_OUTSIDE);
    series(TEXT "fill_window", MINE(one_fill_window), 1u << IMGREF_OK | 1u << IMGREF_NOT_AN_IMAGE | 1u << IMGREF_WINDOW_OUTSIDE);
    series(TEXT "copy_window", MINE(one_copy_window),
           1u << IMGREF_OK | 1u << IMGREF_NOT_AN_IMAGE | 1u << IMGREF_WINDOW_OUTSIDE | 1u << IMGREF_SIZES_DIFFER);
    series(TEXT "move_window", MINE(one_move_window),
           1u << IMGREF_OK | 1u << IMGREF_NOT_AN_IMAGE | 1u << IMGREF_WINDOW_OUTSIDE | 1u << IMGREF_SIZES_DIFFER);
    series(TEXT "mosaic", MINE(one_mosaic), 1u << IMGREF_OK | 1u << IMGREF_NOT_AN_IMAGE | 1u << IMGREF_WINDOW_OUTSIDE | 1u << IMGREF_NO_TILE);
    series(TEXT "fill_pixels", MINE(one_fill_pixels), 1u << IMGREF_OK | 1u << IMGREF_NOT_AN_IMAGE | 1u << IMGREF_WINDOW_OUTSIDE);
    series(TEXT "mosaic_pixels", MINE(one_mosaic_pixels),
           1u << IMGREF_OK | 1u << IMGREF_NOT_AN_IMAGE | 1u << IMGREF_WINDOW_OUTSIDE | 1u << IMGREF_NO_TILE);
    series(TEXT "count", MINE(one_count), 1u << IMGREF_OK | 1u << IMGREF_NOT_AN_IMAGE | 1u << IMGREF_WINDOW_OUTSIDE);
    series(TEXT "turn_into", MINE(one_turn_into),
           1u << IMGREF_OK | 1u << IMGREF_NOT_AN_IMAGE | 1u << IMGREF_SIZES_DIFFER | 1u << IMGREF_NO_TURN);
    series(TEXT "transpose_into", MINE(one_transpose_into), 1u << IMGREF_OK | 1u << IMGREF_NOT_AN_IMAGE | 1u << IMGREF_SIZES_DIFFER);
    series(TEXT "turn", MINE(one_turn), 1u << IMGREF_OK | 1u << IMGREF_NOT_AN_IMAGE | 1u << IMGREF_SIZES_DIFFER | 1u << IMGREF_NO_TURN);
    series(TEXT "transpose", MINE(one_transpose), 1u << IMGREF_OK | 1u << IMGREF_NOT_AN_IMAGE | 1u << IMGREF_SIZES_DIFFER);
    series(TEXT "flip_rows", MINE(one_flip_rows), 1u << IMGREF_OK | 1u << IMGREF_NOT_AN_IMAGE | 1u << IMGREF_WINDOW_OUTSIDE);
    series(TEXT "flip_columns", MINE(one_flip_columns), 1u << IMGREF_OK | 1u << IMGREF_NOT_AN_IMAGE | 1u << IMGREF_WINDOW_OUTSIDE);
    series(TEXT "swap_rows", MINE(one_swap_rows), 1u << IMGREF_OK | 1u << IMGREF_NOT_AN_IMAGE | 1u << IMGREF_PLACE_OUTSIDE);
#ifdef MEANS
    series(TEXT "mosaic_means", MINE(one_mosaic_means),
           1u << IMGREF_OK | 1u << IMGREF_NOT_AN_IMAGE | 1u << IMGREF_WINDOW_OUTSIDE | 1u << IMGREF_NO_TILE);
#endif
    series(TEXT "pack", MINE(one_pack), 1u << IMGREF_OK | 1u << IMGREF_NOT_AN_IMAGE);
    series(TEXT "equal", MINE(one_equal), 1u << IMGREF_OK | 1u << IMGREF_NOT_AN_IMAGE);
    series(TEXT "flood_fill", MINE(one_flood_fill), 1u << IMGREF_OK | 1u << IMGREF_NOT_AN_IMAGE | 1u << IMGREF_PLACE_OUTSIDE | 1u << IMGREF_NO_ROOM);
    series(TEXT "components", MINE(one_components), 1u << IMGREF_OK | 1u << IMGREF_NOT_AN_IMAGE | 1u << IMGREF_NO_ROOM);
    series(TEXT "bounding_box", MINE(one_bounding_box), 1u << IMGREF_OK | 1u << IMGREF_NOT_AN_IMAGE);
}

#undef MEANS
#undef CELL
#undef OF
#undef MINE
#undef TEXT
