// Each call of imgref.hpp, and each refusal. Ends with the line 'N passed, M failed'.
#include <imgref.hpp>

#include <algorithm>
#include <array>
#include <cmath>
#include <cstdio>
#include <string>
#include <vector>

static unsigned passed = 0, failed = 0;

static void check(const char *label, bool is_well) {
    ++(is_well ? passed : failed);
    std::printf("%s: %s\n", label, is_well ? "passed" : "FAILED");
}

// Whether a call is refused with a status.
template <class Call> static bool is_refused(imgref_status status, Call call) {
    try {
        call();
    } catch (const imgref::refused &why) {
        return why.status() == status && std::string(why.what()).size() > 3;
    }
    return false;
}

template <class Call> static bool is_invalid(Call call) {
    try {
        call();
    } catch (const imgref::refused &) {
        return false;
    } catch (const std::invalid_argument &) {
        return true;
    }
    return false;
}

struct colour {
    std::uint8_t red, green, blue, alpha;
};
static bool operator==(colour a, colour b) { return a.red == b.red && a.green == b.green && a.blue == b.blue && a.alpha == b.alpha; }

// Each call on pixels of a type: 3 by 2 at stride 4, where the cells 3 and 7 are padding.
template <class T> static void calls_on(const char *label, std::array<T, 9> pixels, const T &other) {
    using namespace imgref;
    const std::array<T, 9> p = pixels;
    view image(pixels, 3, 2, 4);
    static_assert(std::is_same_v<decltype(image), view<T>>);
    bool is_well = image.get(2, 1) == p[6] && image.row(1)[1] == p[5] && image.width() == 3 && image.height() == 2 && image.stride() == 4 && image.size() == 9;
    image.put(0, 1, other);
    is_well = is_well && pixels == std::array<T, 9>{p[0], p[1], p[2], p[3], other, p[5], p[6], p[7], p[8]};
    image.fill({1, 0, 2, 2}, other);
    is_well = is_well && pixels == std::array<T, 9>{p[0], other, other, p[3], other, other, other, p[7], p[8]};
    image.move({0, 0, 2, 2}, {1, 0, 2, 2});
    is_well = is_well && pixels == std::array<T, 9>{p[0], p[0], other, p[3], other, other, other, p[7], p[8]};
    image.window({1, 0, 2, 2}).mosaic(2, 2);
    is_well = is_well && pixels == std::array<T, 9>{p[0], p[0], p[0], p[3], other, p[0], p[0], p[7], p[8]};
    const std::vector<T> source{p[4], p[5], p[6], p[0]};
    image.copy({1, 0, 2, 2}, view(source, 2, 2));
    is_well = is_well && pixels == std::array<T, 9>{p[0], p[4], p[5], p[3], other, p[6], p[0], p[7], p[8]};
    is_well = is_well && image.window({1, 0, 2, 2}) == view(source, 2, 2) && image.window({0, 0, 2, 2}) != view(source, 2, 2);
    view<const T> reading = image;
    is_well = is_well && reading == image && reading.get(1, 0) == p[4];
    image.pack();
    is_well = is_well && image.stride() == 3 && pixels == std::array<T, 9>{p[0], p[4], p[5], other, p[6], p[0], p[0], p[7], p[8]};
    image.fill(other);
    check(label, is_well && std::count(pixels.begin(), pixels.end(), other) >= 6);
}

static void refusals() {
    using namespace imgref;
    std::array<std::uint16_t, 9> pixels{1, 2, 3, 90, 4, 5, 6, 91, 92};
    const auto before = pixels;
    view image(pixels, 3, 2, 4);
    std::vector<std::uint16_t> apart{7, 7, 7, 7};
    const std::size_t most = static_cast<std::size_t>(-1);
    check("no image", is_refused(IMGREF_NOT_AN_IMAGE, [&] { view(pixels, 3, 3, 4); }) && is_refused(IMGREF_NOT_AN_IMAGE, [&] { view(pixels, 3, 2, 2); }) &&
                          is_refused(IMGREF_NOT_AN_IMAGE, [&] { view(pixels, 3, most, most); }));
    check("no place", is_refused(IMGREF_PLACE_OUTSIDE, [&] { image.get(3, 0); }) && is_refused(IMGREF_PLACE_OUTSIDE, [&] { image.put(0, 2, {7}); }) &&
                          is_refused(IMGREF_PLACE_OUTSIDE, [&] { image.row(2); }));
    check("no window", is_refused(IMGREF_WINDOW_OUTSIDE, [&] { image.fill({2, 0, 2, 2}, {7}); }) && is_refused(IMGREF_WINDOW_OUTSIDE, [&] { image.window({most, 0, 2, 2}); }) &&
                           is_refused(IMGREF_WINDOW_OUTSIDE, [&] { image.move({0, 0, 1, 1}, {3, 0, 1, 1}); }));
    check("sizes differ", is_refused(IMGREF_SIZES_DIFFER, [&] { image.copy({0, 0, 1, 1}, view(apart, 2, 2)); }));
    check("no tile", is_refused(IMGREF_NO_TILE, [&] { image.mosaic(0, 2); }) && is_refused(IMGREF_NO_TILE, [&] { image.tiles(2, 0); }) &&
                         is_refused(IMGREF_NO_TILE, [&] { image.tiles(2, 2)[2]; }));
    check("shared memory", is_invalid([&] { image.window({0, 0, 2, 2}).copy(image.window({1, 0, 2, 2})); }));
    check("misaligned pixels", is_invalid([&] { view(reinterpret_cast<std::uint16_t *>(reinterpret_cast<char *>(pixels.data()) + 1), 2, 1, 1, 1); }));
    check("no pixels", is_invalid([&] { view(static_cast<std::uint16_t *>(nullptr), 2, 1, 1, 1); }));
    check("nothing has changed", pixels == before);
}

static void empty_images() {
    using namespace imgref;
    std::vector<double> none;
    view image(none, 0, 7);
    image.fill(1.5);
    image.mosaic(2, 2);
    image.pack();
    check("an image of no pixel", image.empty() && image == view(none, 0, 7) && image != view(none, 7, 0) && image.stride() == 1 && image.tiles(2, 2).size() == 0);
    std::array<double, 6> pixels{};
    check("an empty window", view(pixels, 3, 2).window({3, 2, 0, 0}).empty() && view(pixels, 3, 2).window({1, 1, 0, 1}).row(0) == pixels.data());
    const double zero = 0.0, nan = std::nan("");
    const std::array<double, 1> zeros{zero}, negative{-zero}, nans{nan}, same{nan};
    check("pixels are compared by their bits", view(zeros, 1, 1) != view(negative, 1, 1) && view(nans, 1, 1) == view(same, 1, 1));
}

// Colours of three elements, next to one another: two in each of two rows, and a cell of padding.
static void pixels_of_several() {
    using namespace imgref;
    std::array<std::uint16_t, 14> pixels{1, 2, 3, 4, 5, 6, 90, 7, 8, 9, 10, 11, 12, 91};
    view image(pixels, 6, 2, 7);
    image.fill_pixels({1, 0, 1, 2}, {600, 601, 602});
    check("fill_pixels", pixels == std::array<std::uint16_t, 14>{1, 2, 3, 600, 601, 602, 90, 7, 8, 9, 600, 601, 602, 91});
    image.mosaic_pixels(3, {0, 0, 2, 2}, 2, 2);
    check("mosaic_pixels", pixels == std::array<std::uint16_t, 14>{1, 2, 3, 1, 2, 3, 90, 1, 2, 3, 1, 2, 3, 91});
    check("count_pixels", image.count_pixels({0, 0, 2, 2}, {1, 2, 3}) == 4 && image.count_pixels({0, 0, 2, 2}, {1, 2, 4}) == 0);
    check("count", image.count({1}) == 4 && image.count({0, 0, 3, 1}, {2}) == 1 && is_refused(IMGREF_WINDOW_OUTSIDE, [&] { image.count({0, 0, 8, 1}, {2}); }));
    std::array<std::uint8_t, 6> bytes{1, 10, 2, 20, 4, 31};
    view(bytes, 6, 1).mosaic_means(2, {0, 0, 3, 1}, 2, 1);
    check("mosaic_means", bytes == std::array<std::uint8_t, 6>{2, 15, 2, 15, 4, 31});
    check("no such colours", is_refused(IMGREF_NOT_AN_IMAGE, [&] { image.mosaic_pixels(0, {0, 0, 1, 1}, 1, 1); }) && is_refused(IMGREF_NOT_AN_IMAGE, [&] { image.mosaic_pixels(5, {0, 0, 1, 1}, 1, 1); }) &&
                                 is_refused(IMGREF_WINDOW_OUTSIDE, [&] { image.fill_pixels({2, 0, 1, 1}, {1, 2, 3}); }) && is_refused(IMGREF_NO_TILE, [&] { image.mosaic_pixels(3, {0, 0, 1, 1}, 0, 1); }));
}

// A row that colours don't fill is no image of colours, in each call that takes them.
static void widths_of_no_colours() {
    using namespace imgref;
    std::array<std::uint8_t, 14> pixels{1, 2, 3, 4, 5, 6, 7, 8, 9, 10, 11, 12, 13, 14}, room{};
    const auto before = pixels;
    view image(pixels, 7, 2), whole(room, 6, 2, 7);
    const rect first{0, 0, 1, 1};
    const auto none = [](auto call) { return is_refused(IMGREF_NOT_AN_IMAGE, call); };
    check("no colours: fill_pixels, mosaic_pixels, mosaic_means, count_pixels",
          none([&] { image.fill_pixels(first, {1, 2, 3}); }) && none([&] { image.mosaic_pixels(3, first, 1, 1); }) && none([&] { image.mosaic_means(3, first, 1, 1); }) && none([&] { image.count_pixels(first, {1, 2, 3}); }));
    check("no colours: turn_into, transpose_into, of either image",
          none([&] { image.turn_into(whole, turn::half, 3); }) && none([&] { whole.turn_into(image, turn::half, 3); }) && none([&] { image.transpose_into(whole, 3); }) && none([&] { whole.transpose_into(image, 3); }));
    check("no colours: turn, transpose, flip_rows, flip_columns",
          none([&] { image.turn(turn::half, 3); }) && none([&] { image.transpose(3); }) && none([&] { image.flip_rows(first, 3); }) && none([&] { image.flip_columns(first, 3); }) && none([&] { image.flip_columns(3); }));
    check("no colours: nothing has changed", pixels == before && room == std::array<std::uint8_t, 14>{});
    try {
        image.turn(turn::half, 3);
    } catch (const refused &why) {
        check("no colours: the text says why", why.what() == std::string("the width is no multiple of the channels"));
    }
    view(pixels, 6, 2, 7).flip_rows({1, 0, 1, 2}, 3);
    check("flip_rows counts a window in colours", pixels == std::array<std::uint8_t, 14>{1, 2, 3, 11, 12, 13, 7, 8, 9, 10, 4, 5, 6, 14});
}

// A view of colours counts in colours in each call: no channel of one pixel comes into another.
static void views_of_colours() {
    using namespace imgref;
    std::array<std::uint8_t, 14> bytes{1, 2, 3, 4, 5, 6, 90, 7, 8, 9, 10, 11, 12, 91};
    auto image = colours<3>(bytes, 2, 2, 7);
    static_assert(std::is_same_v<decltype(image), colour_view<std::uint8_t, 3>> && decltype(image)::channels() == 3);
    using cells = std::array<std::uint8_t, 14>;
    using rgb = std::array<std::uint8_t, 3>;
    check("colours: sizes and pixels", image.width() == 2 && image.height() == 2 && image.stride() == 7 && image.get(1, 1) == rgb{10, 11, 12} && image.whole().width == 2 && image.elements().width() == 6);
    image.flip_columns();
    check("colours: flip_columns", bytes == cells{4, 5, 6, 1, 2, 3, 90, 10, 11, 12, 7, 8, 9, 91});
    image.turn(turn::half);
    check("colours: turn by a half", bytes == cells{7, 8, 9, 10, 11, 12, 90, 1, 2, 3, 4, 5, 6, 91});
    image.turn(turn::right);
    check("colours: turn", bytes == cells{1, 2, 3, 7, 8, 9, 90, 4, 5, 6, 10, 11, 12, 91});
    image.transpose();
    image.swap_rows(0, 1);
    image.flip_rows();
    check("colours: transpose, swap_rows, flip_rows", bytes == cells{1, 2, 3, 4, 5, 6, 90, 7, 8, 9, 10, 11, 12, 91});
    image.put(0, 1, {20, 21, 22});
    image.fill({1, 0, 1, 2}, {30, 31, 32});
    check("colours: put, fill, count", bytes == cells{1, 2, 3, 30, 31, 32, 90, 20, 21, 22, 30, 31, 32, 91} && image.count(image.whole(), {30, 31, 32}) == 2);
    const auto seen = image.get(1, 0);
    image.put(0, 0, image.get(0, 1));
    image.fill({0, 1, 1, 1}, seen);
    check("colours: what get returns is a colour", bytes == cells{20, 21, 22, 30, 31, 32, 90, 30, 31, 32, 30, 31, 32, 91} && image.count(image.whole(), image.get(1, 1)) == 3);
    image.put(0, 0, {1, 2, 3});
    image.put(0, 1, {20, 21, 22});
    image.window({1, 1, 1, 1}).fill({0, 0, 1, 1}, {40, 41, 42});
    image.move({1, 1, 1, 1}, {0, 0, 1, 1});
    check("colours: window, move", bytes == cells{40, 41, 42, 30, 31, 32, 90, 20, 21, 22, 40, 41, 42, 91});
    image.window({0, 0, 1, 2}).copy(image.window({1, 0, 1, 2}));
    check("colours: copy of a half", bytes == cells{30, 31, 32, 30, 31, 32, 90, 40, 41, 42, 40, 41, 42, 91});
    image.mosaic(image.whole(), 2, 2);
    check("colours: mosaic", bytes == cells{30, 31, 32, 30, 31, 32, 90, 30, 31, 32, 30, 31, 32, 91});
    image.put(0, 0, {34, 31, 32});
    image.mosaic_means(image.whole(), 2, 2);
    check("colours: mosaic_means", bytes == cells{31, 31, 32, 31, 31, 32, 90, 31, 31, 32, 31, 31, 32, 91});
    image.put(0, 0, {1, 2, 3});
    std::array<std::uint8_t, 12> room{};
    auto target = colours<3>(room, 2, 2);
    colour_view<const std::uint8_t, 3> reading = image;
    reading.turn_into(target, turn::half);
    check("colours: turn_into, transpose_into", target.get(1, 1) == rgb{1, 2, 3} && (reading.transpose_into(target), target.get(0, 0) == rgb{1, 2, 3}) && target == reading);
    std::size_t tiles = 0;
    for (rect it : image.tiles(1, 2)) tiles += it.width;
    image.pack();
    check("colours: tiles, pack", tiles == 2 && image.stride() == 6 && target == image);
    check("colours: refusals", is_refused(IMGREF_NOT_AN_IMAGE, [&] { colours<3>(room, 3, 2); }) && is_refused(IMGREF_NOT_AN_IMAGE, [&] { colour_view<std::uint8_t, 3>(view(room, 4, 3)); }) &&
                                   is_refused(IMGREF_PLACE_OUTSIDE, [&] { image.get(2, 0); }) && is_refused(IMGREF_PLACE_OUTSIDE, [&] { image.put(0, 2, {1, 2, 3}); }) &&
                                   is_refused(IMGREF_WINDOW_OUTSIDE, [&] { image.fill({1, 0, 2, 1}, {1, 2, 3}); }) && is_refused(IMGREF_WINDOW_OUTSIDE, [&] { image.window({static_cast<std::size_t>(-1), 0, 1, 1}); }) &&
                                   is_refused(IMGREF_SIZES_DIFFER, [&] { image.turn_into(colours<3>(room, 1, 2), turn::half); }) && is_refused(IMGREF_NOT_AN_IMAGE, [&] { colours<3>(room, static_cast<std::size_t>(-1), 1); }));
}

// Each pair of windows of one image of 5 by 4: those that share no pixel are copied, and the others are refused.
static void halves() {
    using namespace imgref;
    std::vector<rect> windows;
    for (std::size_t x = 0; x < 5; ++x)
        for (std::size_t y = 0; y < 4; ++y)
            for (std::size_t w : {1, 2, 3})
                for (std::size_t h : {1, 2, 4})
                    if (x + w <= 5 && y + h <= 4) windows.push_back({x, y, w, h});
    bool is_well = true;
    unsigned copied = 0, kept = 0;
    for (const rect &to : windows)
        for (const rect &from : windows) {
            if (to.width != from.width || to.height != from.height) continue;
            std::array<std::uint16_t, 28> cells{};
            for (std::size_t k = 0; k < cells.size(); ++k) cells[k] = static_cast<std::uint16_t>(k);
            auto due = cells;
            const bool is_apart = to.left + to.width <= from.left || from.left + from.width <= to.left || to.top + to.height <= from.top || from.top + from.height <= to.top;
            if (is_apart)
                for (std::size_t y = 0; y < to.height; ++y)
                    for (std::size_t x = 0; x < to.width; ++x) due[(to.top + y) * 7 + to.left + x] = cells[(from.top + y) * 7 + from.left + x];
            view image(cells, 5, 4, 7);
            const bool is_kept = is_invalid([&] { image.copy(to, image.window(from)); });
            is_well = is_well && is_kept != is_apart && cells == due;
            ++(is_apart ? copied : kept);
        }
    check("windows of one image that share no pixel are copied onto each other", is_well && copied > 100 && kept > 100);
    std::array<std::uint8_t, 16> cells{0, 1, 2, 3, 4, 5, 6, 7, 8, 9, 10, 11, 12, 13, 14, 15};
    check("columns that go on in the next row", is_invalid([&] { view(cells.data(), 16, 2, 3, 4).copy(view<const std::uint8_t>(cells.data() + 3, 13, 2, 3, 4)); }) && cells[4] == 4);
    check("no copy of another size", is_refused(IMGREF_SIZES_DIFFER, [&] { view image(cells, 4, 4); image.copy({0, 0, 2, 2}, image.window({2, 0, 2, 3})); }) && is_refused(IMGREF_WINDOW_OUTSIDE, [&] { view image(cells, 4, 4); image.copy({3, 0, 2, 2}, image.window({2, 0, 2, 2})); }));
}

// Rectangles of other integers: no number below 0 is inside.
static void rectangles_of_integers() {
    using namespace imgref;
    std::array<std::uint8_t, 6> pixels{};
    view image(pixels, 3, 2);
    int x = 1, y = 0, w = 2, h = 1, before = -1;
    long long large = 1LL << 40;
    image.fill({x, y, w, h}, {7});
    image.fill({0, 1u, std::size_t(1), h}, {8});
    check("rectangles of int", pixels == std::array<std::uint8_t, 6>{0, 7, 7, 8, 0, 0});
    check("rectangles of numbers below 0", is_refused(IMGREF_WINDOW_OUTSIDE, [&] { image.fill({before, y, w, h}, {9}); }) && is_refused(IMGREF_WINDOW_OUTSIDE, [&] { image.fill({x, before, w, h}, {9}); }) &&
                                               is_refused(IMGREF_WINDOW_OUTSIDE, [&] { image.fill({x, y, before, h}, {9}); }) && is_refused(IMGREF_WINDOW_OUTSIDE, [&] { image.fill({x, y, w, before}, {9}); }) &&
                                               is_refused(IMGREF_WINDOW_OUTSIDE, [&] { image.fill({before, y, 0, 0}, {9}); }) && is_refused(IMGREF_WINDOW_OUTSIDE, [&] { image.fill({large, y, w, h}, {9}); }));
}

// What is taken as a pixel: a type that loses nothing, a constant in braces, and from C++20 on a constant.
static void values() {
    using namespace imgref;
    std::array<double, 2> doubles{};
    std::array<std::uint16_t, 2> pixels{};
    const std::uint8_t small = 200;
    view(doubles, 2, 1).fill(0.5f);
    view(pixels, 2, 1).fill({0, 0, 1, 1}, small);
    view(pixels, 2, 1).put(1, 0, {65535});
    check("values that fit", doubles[1] == 0.5 && pixels[0] == 200 && pixels[1] == 65535 && view(pixels, 2, 1).count(small) == 1);
#if defined(__cpp_consteval)
    view(pixels, 2, 1).fill({0, 0, 1, 1}, 7);
    view(pixels, 2, 1).put(1, 0, 65535);
    view(doubles, 2, 1).fill(-3);
    std::array<float, 1> floats{};
    view(floats, 1, 1).fill(0.1);
    check("constants that fit", pixels[0] == 7 && pixels[1] == 65535 && view(pixels, 2, 1).count(7) == 1 && doubles[0] == -3 && floats[0] == 0.1f);
#endif
    const imgref_rect of_c = {1, 0, 1, 1};
    const rect none{};
    check("rectangles", rect(of_c).left == 1 && none.left + none.top + none.width + none.height == 0 && view(pixels, 2, 1).window(of_c).width() == 1);
}

// An image of 3 by 2 that is turned, transposed and flipped, and colours of three elements.
static void turns() {
    using namespace imgref;
    std::array<std::uint8_t, 9> pixels{1, 2, 3, 90, 4, 5, 6, 91, 92};
    std::array<std::uint8_t, 6> room{};
    view image(pixels, 3, 2, 4);
    view upright(room, 2, 3), flat(room, 3, 2);
    view<const std::uint8_t> reading = image;
    reading.turn_into(upright, turn::right);
    check("turn_into right", room == std::array<std::uint8_t, 6>{4, 1, 5, 2, 6, 3});
    image.turn_into(upright, turn::left);
    check("turn_into left", room == std::array<std::uint8_t, 6>{3, 6, 2, 5, 1, 4});
    image.turn_into(flat, turn::half);
    check("turn_into half", room == std::array<std::uint8_t, 6>{6, 5, 4, 3, 2, 1});
    image.transpose_into(upright);
    check("transpose_into", room == std::array<std::uint8_t, 6>{1, 4, 2, 5, 3, 6});
    image.flip_rows();
    image.flip_columns({1, 0, 2, 2});
    check("flips", pixels == std::array<std::uint8_t, 9>{4, 6, 5, 90, 1, 3, 2, 91, 92});
    image.swap_rows(0, 1);
    image.flip_columns();
    check("swap_rows", pixels == std::array<std::uint8_t, 9>{2, 3, 1, 90, 5, 6, 4, 91, 92});
    view colours(room, 6, 1), column(pixels, 3, 2, 4);
    colours.flip_columns(3);
    check("colours are flipped whole", room == std::array<std::uint8_t, 6>{5, 3, 6, 1, 4, 2});
    colours.turn_into(column, turn::right, 3);
    check("colours are turned whole", pixels == std::array<std::uint8_t, 9>{5, 3, 6, 90, 1, 4, 2, 91, 92});
    view square(pixels, 2, 2, 4);
    pixels = {1, 2, 90, 91, 3, 4, 92, 93, 94};
    square.turn(turn::right);
    check("turn right in place", pixels == std::array<std::uint8_t, 9>{3, 1, 90, 91, 4, 2, 92, 93, 94});
    square.transpose();
    check("transpose in place", pixels == std::array<std::uint8_t, 9>{3, 4, 90, 91, 1, 2, 92, 93, 94});
    view strip(room, 6, 1);
    room = {1, 2, 3, 4, 5, 6};
    strip.turn(turn::half, 3);
    check("colours are turned whole in place", room == std::array<std::uint8_t, 6>{4, 5, 6, 1, 2, 3});
    check("no turn in place", is_refused(IMGREF_SIZES_DIFFER, [&] { strip.turn(turn::left); }) && is_refused(IMGREF_SIZES_DIFFER, [&] { strip.transpose(3); }) &&
                                  is_refused(IMGREF_NO_TURN, [&] { square.turn(turn{0}); }) && room[0] == 4 && pixels[0] == 3);
    try {
        strip.turn(turn::left);
    } catch (const refused &why) {
        check("no turn in place: the text says what to do", std::string(why.what()).find("turn_into") != std::string::npos);
    }
    check("no turn", is_refused(IMGREF_SIZES_DIFFER, [&] { image.turn_into(flat, turn::right); }) && is_refused(IMGREF_NO_TURN, [&] { image.turn_into(flat, turn{4}); }) &&
                         is_refused(IMGREF_SIZES_DIFFER, [&] { image.transpose_into(flat); }) && is_invalid([&] { image.turn_into(image, turn::half); }));
    check("no flip", is_refused(IMGREF_WINDOW_OUTSIDE, [&] { image.flip_rows({2, 0, 2, 2}); }) && is_refused(IMGREF_WINDOW_OUTSIDE, [&] { image.flip_columns({0, 1, 1, 2}); }) &&
                         is_refused(IMGREF_PLACE_OUTSIDE, [&] { image.swap_rows(0, 2); }));
}

// Values and sums of 3 by 2 bytes at stride 4.
static void values_and_sums() {
    using namespace imgref;
    std::array<std::uint8_t, 7> pixels{10, 10, 20, 99, 30, 20, 20};
    view image(pixels, 3, 2, 4);
    const auto counts = image.histogram();
    check("histogram", counts.size() == 256 && counts[10] == 2 && counts[20] == 3 && counts[30] == 1 && counts[99] == 0);
    std::array<std::uint16_t, 3> words{7, 65535, 7};
    const auto of_words = view(words, 3, 1).histogram();
    check("histogram of words", of_words.size() == 65536 && of_words[7] == 2 && of_words[65535] == 1);
    std::array<std::uint64_t, 9> areas{};
    image.integral_into(view(areas, 3, 2, 5));
    check("integral_into", areas == std::array<std::uint64_t, 9>{10, 20, 40, 0, 0, 40, 70, 110, 0});
    check("no integral", is_refused(IMGREF_SIZES_DIFFER, [&] { image.integral_into(view(areas, 2, 2)); }) && is_invalid([&] {
                             view bytes(reinterpret_cast<std::uint8_t *>(areas.data()), 8, 2, 2, 2);
                             bytes.integral_into(view(areas, 2, 2));
                         }));
    image.equalize();
    check("equalize", pixels == std::array<std::uint8_t, 7>{85, 85, 212, 99, 255, 212, 212});
}

// The mean of the box around a pixel of a window, by going over all pixels of the window.
static std::uint8_t box_mean(const std::vector<std::uint8_t> &cells, std::size_t stride, std::size_t channels, const imgref::rect &window, std::size_t x, std::size_t y, std::size_t k, std::size_t across, std::size_t down) {
    std::size_t sum = 0, count = 0;
    for (std::size_t v = 0; v < window.height; ++v)
        for (std::size_t u = 0; u < window.width; ++u)
            if ((u < x ? x - u : u - x) <= across && (v < y ? y - v : v - y) <= down) {
                sum += cells[(window.top + v) * stride + (window.left + u) * channels + k];
                ++count;
            }
    return static_cast<std::uint8_t>((2 * sum + count) / (2 * count));
}

// Blurs of windows of 7 by 6 pixels with 1 to 4 channels: each pixel beside the model, and no other byte.
static void blurs() {
    using namespace imgref;
    std::array<std::uint8_t, 6> row{0, 10, 20, 90, 3, 4};
    view(row, 6, 1).blur({0, 0, 4, 1}, 1);
    check("blur by hand", row == std::array<std::uint8_t, 6>{5, 10, 40, 55, 3, 4});
    for (std::size_t channels = 1; channels <= 4; ++channels) {
        const std::size_t width = 7, height = 6, stride = width * channels + 3;
        std::vector<std::uint8_t> cells(stride * height);
        std::uint32_t next = 1;
        for (auto &it : cells) it = static_cast<std::uint8_t>((next = next * 1664525u + 1013904223u) >> 24);
        bool is_well = true;
        for (const rect &window : {rect{0, 0, width, height}, rect{2, 1, 4, 3}, rect{0, 5, 7, 1}, rect{6, 0, 1, 6}, rect{3, 3, 0, 2}, rect{7, 6, 0, 0}})
            for (std::size_t across : {0, 1, 2, 7, 32767})
                for (std::size_t down : {0, 1, 9}) {
                    auto due = cells, blurred = cells;
                    for (std::size_t y = 0; y < window.height; ++y)
                        for (std::size_t x = 0; x < window.width; ++x)
                            for (std::size_t k = 0; k < channels; ++k) due[(window.top + y) * stride + (window.left + x) * channels + k] = box_mean(cells, stride, channels, window, x, y, k, across, down);
                    view(blurred, width * channels, height, stride).blur(window, across, down, channels);
                    is_well = is_well && blurred == due;
                }
        check(("blur, channels: " + std::to_string(channels)).c_str(), is_well);
    }
    std::vector<std::uint8_t> cells(12 * 4);
    for (std::size_t k = 0; k < cells.size(); ++k) cells[k] = static_cast<std::uint8_t>(k * k);
    auto same = cells, other = cells, whole = cells;
    const auto before = cells;
    auto image = colours<3>(cells, 4, 4);
    image.blur({1, 0, 3, 4}, 2, 1);
    view(same, 12, 4).blur({1, 0, 3, 4}, 2, 1, 3);
    check("blur of colours", cells == same && cells != before && cells[0] == before[0]);
    colours<3>(other, 4, 4).blur(2);
    view(whole, 12, 4).blur({0, 0, 4, 4}, 2, 2, 3);
    auto grey = before, grey_whole = before;
    view(grey, 12, 4).blur(2);
    view(grey_whole, 12, 4).blur({0, 0, 12, 4}, 2);
    check("blur of all", other == whole && grey == grey_whole && grey != other);
    const auto kept = cells;
    view bytes(cells, 12, 4);
    check("no blur", is_refused(IMGREF_WINDOW_OUTSIDE, [&] { image.blur({2, 0, 3, 1}, 1); }) && is_refused(IMGREF_WINDOW_OUTSIDE, [&] { bytes.blur({0, 4, 1, 1}, 1); }) &&
                         is_refused(IMGREF_TOO_LARGE, [&] { image.blur(32768); }) && is_refused(IMGREF_TOO_LARGE, [&] { bytes.blur({0, 0, 1, 1}, 0, 32768); }) && is_refused(IMGREF_TOO_LARGE, [&] { bytes.blur({0, 0, 1, 1}, static_cast<std::size_t>(-1), 0); }) &&
                         is_refused(IMGREF_NOT_AN_IMAGE, [&] { bytes.blur({0, 0, 1, 1}, 1, 1, 5); }) && is_refused(IMGREF_NOT_AN_IMAGE, [&] { bytes.blur({0, 0, 1, 1}, 1, 1, 0); }) && cells == kept);
    std::vector<std::uint8_t> none;
    view(none, 0, 7).blur(3);
    check("blur of no pixel", none.empty());
}

// What goes by single elements, on three bytes a pixel: channels mix, and a struct of four bytes keeps them apart.
static void channels_that_mix() {
    using namespace imgref;
    // (red beside a blue that has the same number)
    const std::array<std::uint8_t, 6> pixels{200, 0, 7, 7, 0, 200};
    auto bytes = pixels;
    view image(bytes, 6, 1);
    image.flood_fill(2, 0, {9});
    check("single elements: flood_fill goes from a blue on to the next red", bytes == std::array<std::uint8_t, 6>{200, 0, 9, 9, 0, 200});
    std::array<std::uint64_t, 6> labels{};
    check("single elements: components_into", image.components_into(view(labels, 6, 1)) == 5 && labels == std::array<std::uint64_t, 6>{1, 2, 3, 3, 4, 5});
    const rect around = image.bounding_box({200});
    check("single elements: bounding_box, histogram", around.left == 0 && around.width == 6 && image.histogram()[200] == 2);
    image.integral_into(view(labels, 6, 1));
    check("single elements: integral_into", labels == std::array<std::uint64_t, 6>{200, 200, 209, 218, 218, 418});
    bytes = pixels;
    image.mosaic(3, 1);
    check("single elements: mosaic", bytes == std::array<std::uint8_t, 6>{200, 200, 200, 7, 7, 7});
    alignas(4) std::array<colour, 3> whole{{{1, 2, 3, 4}, {1, 2, 3, 4}, {4, 3, 2, 1}}};
    view(whole, 3, 1).flood_fill(0, 0, {9, 8, 7, 6});
    std::array<std::uint64_t, 3> regions{};
    check("colours of four bytes are single elements", whole[1] == colour{9, 8, 7, 6} && whole[2] == colour{4, 3, 2, 1} && view(whole, 3, 1).components_into(view(regions, 3, 1)) == 2);
}

// Regions: a ring of ones around a hole, 5 by 4 at stride 6.
static void regions() {
    using namespace imgref;
    std::array<std::int16_t, 23> pixels{1, 1, 1, 0, 1, 1, 1, 0, 1, 0, 0, 1, 1, 1, 1, 1, 0, 1, 0, 0, 1, 0, 0};
    std::array<std::uint64_t, 20> labels{};
    view image(pixels, 5, 4, 6);
    view found(labels, 5, 4);
    check("components_into", image.components_into(found) == 5 && labels == std::array<std::uint64_t, 20>{1, 1, 1, 2, 3, 1, 4, 1, 2, 2, 1, 1, 1, 1, 2, 5, 5, 1, 2, 2});
    const rect around = found.bounding_box({2});
    check("bounding_box", around.left == 3 && around.top == 0 && around.width == 2 && around.height == 4 && !found.bounding_box({6}).width && found.count({2}) == 6);
    image.flood_fill(2, 2, {-7});
    check("flood_fill", pixels == std::array<std::int16_t, 23>{-7, -7, -7, 0, 1, 1, -7, 0, -7, 0, 0, 1, -7, -7, -7, -7, 0, 1, 0, 0, -7, 0, 0});
    check("no regions", is_refused(IMGREF_PLACE_OUTSIDE, [&] { image.flood_fill(5, 0, {1}); }) && is_refused(IMGREF_SIZES_DIFFER, [&] { image.components_into(view(labels, 4, 4)); }) &&
                            is_invalid([&] { found.components_into(found); }));
}

// A window's rows are joined over the pixels beside it.
static void packed_windows() {
    using namespace imgref;
    std::array<std::uint8_t, 6> pixels{1, 2, 3, 4, 5, 6};
    view image(pixels, 3, 2);
    image.window({0, 0, 2, 2}).pack();
    check("a window is packed over the pixels beside it", pixels == std::array<std::uint8_t, 6>{1, 2, 4, 5, 5, 6});
}

static void tiles() {
    using namespace imgref;
    std::array<std::uint8_t, 6> pixels{};
    view image(pixels, 3, 2);
    std::vector<std::array<std::size_t, 4>> found;
    for (rect it : image.tiles(2, 2)) found.push_back({it.left, it.top, it.width, it.height});
    check("tiles", found == std::vector<std::array<std::size_t, 4>>{{0, 0, 2, 2}, {2, 0, 1, 2}});
}

#ifdef IMGREF_HAS_MDSPAN
static void spans() {
    using namespace imgref;
    std::array<float, 9> pixels{1, 2, 3, 90, 4, 5, 6, 91, 92};
    using extents = std::dextents<std::size_t, 2>;
    const std::layout_stride::mapping<extents> rows(extents(2, 3), std::array<std::size_t, 2>{4, 1});
    std::mdspan<float, extents, std::layout_stride> span(pixels.data(), rows);
    view image(span);
    image.put(2, 1, 7.0f);
    auto back = image.as_mdspan();
    check("std::mdspan", image.stride() == 4 && image.width() == 3 && image.height() == 2 && back.extent(0) == 2 && back.stride(0) == 4 && pixels[6] == 7.0f);
    check("std::mdspan of joined rows", view(std::mdspan<float, extents>(pixels.data(), 3, 3)).stride() == 3);
    check("std::mdspan by columns", is_invalid([&] { view(std::mdspan<float, extents, std::layout_left>(pixels.data(), 3, 3)); }));
}
#endif

int main() {
    calls_on<std::uint8_t>("cells of uint8_t", {1, 2, 3, 90, 4, 5, 6, 91, 92}, 200);
    calls_on<std::int16_t>("cells of int16_t", {-1, 2, 3, 90, 4, 5, 6, 91, 92}, -200);
    calls_on<float>("cells of float", {1, 2, 3, 90, 4, 5, 6, 91, 92}, -0.5f);
    calls_on<double>("cells of double", {1, 2, 3, 90, 4, 5, 6, 91, 92}, 1e300);
    calls_on<std::uint64_t>("cells of uint64_t", {1, 2, 3, 90, 4, 5, 6, 91, 92}, ~std::uint64_t(0));
    alignas(4) const std::array<colour, 9> colours{{{1, 2, 3, 4}, {2, 2, 3, 4}, {3, 2, 3, 4}, {90, 0, 0, 0}, {4, 2, 3, 4}, {5, 2, 3, 4}, {6, 2, 3, 4}, {91, 0, 0, 0}, {92, 0, 0, 0}}};
    alignas(4) std::array<colour, 9> kept = colours;
    imgref::view(kept, 3, 2, 4).fill({1, 0, 2, 2}, {7, 7, 7, 255});
    check("cells of a colour", kept[5] == colour{7, 7, 7, 255} && kept[3] == colours[3] && kept[0] == colours[0]);
    refusals();
    empty_images();
    pixels_of_several();
    widths_of_no_colours();
    views_of_colours();
    halves();
    rectangles_of_integers();
    values();
    turns();
    values_and_sums();
    blurs();
    channels_that_mix();
    regions();
    packed_windows();
    tiles();
#ifdef IMGREF_HAS_MDSPAN
    spans();
#else
    std::printf("spans: not tried, no std::mdspan\n");
#endif
    std::printf("%u passed, %u failed\n", passed, failed);
    return failed || !passed;
}
