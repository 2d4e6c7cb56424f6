// imgref.hpp: the calls of imgref.h for C++17 and later, on a view over memory of the caller's.
//
//     std::vector<unsigned char> cells(width * height);
//     imgref::view image(cells, width, height);            // imgref::view<unsigned char>
//     image.fill({8, 8, 64, 64}, {255});                   // a window: left, top, width, height
//     image.window({0, 0, 32, 32}).mosaic(4, 4);           // a view over the same memory
//
// A view is a pointer, a length, a width, a height and a stride, all counted in pixels. It owns
// nothing and is copied like a pointer, as std::span. view<const T> is for reading, and each
// view<T> converts to it. A pixel is any trivially copyable type of 1, 2, 4 or 8 bytes that lies at
// a multiple of its size. Pixels are compared by their bits.
//
// A value of another type is taken as it is where no value of that type is lost, as a float for a
// double. Else it is written in braces, as {255}: the compiler refuses a constant that doesn't fit.
// Where the compiler has C++20's consteval, a constant needs no braces.
//
// Colours of several elements, such as RGB, have a view of their own: imgref::colours<3>(cells,
// width, height). Its calls count in colours. A view<unsigned char> has single bytes as its pixels:
// only calls with `channels` take colours there, and the others would mix their channels.
//
// Where the library refuses, a call throws imgref::refused with the status of imgref.h, and nothing
// has changed. What the library can't see is tested here, and throws std::invalid_argument:
// misaligned pixels, and a source that shares memory with what is written. That the memory is there
// stays the caller's.
#ifndef IMGREF_HPP
#define IMGREF_HPP

#include <imgref.h>

#include <algorithm>
#include <array>
#include <cstddef>
#include <cstdint>
#include <cstring>
#include <functional>
#include <iterator>
#include <memory>
#include <stdexcept>
#include <type_traits>
#include <utility>
#include <vector>

#if defined(__has_include)
#if __has_include(<version>)
#include <version>
#endif
#endif
#if defined(__cpp_lib_mdspan) && __cpp_lib_mdspan >= 202207L
#include <mdspan>
#define IMGREF_HAS_MDSPAN 1
#endif

namespace imgref {

// The column and the row of a window's corner, and its size: four numbers, or none for 0, 0, 0, 0.
struct rect : imgref_rect {
    constexpr rect() noexcept : imgref_rect{0, 0, 0, 0} {}
    constexpr rect(std::size_t left, std::size_t top, std::size_t width, std::size_t height) noexcept : imgref_rect{left, top, width, height} {}
    // (of other integers: a number below 0 is refused by whatever takes the rectangle, since no image reaches it)
    template <class A, class B, class C, class D,
              class = std::enable_if_t<std::is_integral_v<A> && std::is_integral_v<B> && std::is_integral_v<C> && std::is_integral_v<D> && (std::is_signed_v<A> || std::is_signed_v<B> || std::is_signed_v<C> || std::is_signed_v<D>)>>
    constexpr rect(A left, B top, C width, D height) noexcept : imgref_rect{number(left), number(top), number(width), number(height)} {}
    // (a template, since braces with three numbers would be one of these)
    template <class Window, class = std::enable_if_t<std::is_same_v<Window, imgref_rect>>> constexpr rect(const Window &other) noexcept : imgref_rect(other) {}

private:
    // A number below 0 is the largest one.
    template <class Number> static constexpr std::size_t number(Number it) noexcept {
        if constexpr (std::is_signed_v<Number>)
            if (it < 0) return static_cast<std::size_t>(-1);
        return static_cast<std::size_t>(it);
    }
};

// The library refused, and nothing has changed.
class refused : public std::invalid_argument {
public:
    explicit refused(imgref_status status) : refused(status, text(status)) {}
    refused(imgref_status status, const char *why) : std::invalid_argument(why), status_(status) {}

    // What the call returned: one of the statuses of imgref.h.
    imgref_status status() const noexcept { return status_; }

private:
    static const char *text(imgref_status status) noexcept {
        switch (status) {
        case IMGREF_NOT_AN_IMAGE: return "not an image";
        case IMGREF_WINDOW_OUTSIDE: return "the window is outside";
        case IMGREF_SIZES_DIFFER: return "sizes differ";
        case IMGREF_PLACE_OUTSIDE: return "the place is outside";
        case IMGREF_NO_TILE: return "no such tile";
        case IMGREF_NO_TURN: return "no such turn";
        case IMGREF_TOO_LARGE: return "a sum might not fit";
        case IMGREF_NO_ROOM: return "the work buffer has too few numbers";
        default: return "refused";
        }
    }

    imgref_status status_;
};

// A turn, clockwise: the first row becomes the last column, the last row, or the first column.
enum class turn : imgref_turn { right = IMGREF_RIGHT, half = IMGREF_HALF, left = IMGREF_LEFT };

namespace detail {

inline void done(imgref_status status) {
    if (status != IMGREF_OK) throw refused(status);
}

inline void done_in_place(imgref_status status) {
    if (status == IMGREF_SIZES_DIFFER) throw refused(status, "only a square is turned by a quarter or transposed in place: turn_into and transpose_into go to another image");
    done(status);
}

// Whether every value of a type is one of T, as the compiler's rule for braces says.
template <class T, class From, class = void> struct fits : std::is_same<T, From> {};
template <class T, class From>
struct fits<T, From, std::void_t<std::enable_if_t<std::is_convertible_v<const From &, T>>, decltype(T{std::declval<const From &>()})>> : std::true_type {};

#if defined(__cpp_consteval)
// A constant of another type, which is tested while the program is compiled.
template <class T> struct constant {
    T value;
    template <class From, class = std::enable_if_t<std::is_arithmetic_v<From> && std::is_arithmetic_v<T> && !fits<T, From>::value && (std::is_integral_v<From> || std::is_floating_point_v<T>)>>
    consteval constant(From from) : value(static_cast<T>(from)) {
        if (std::is_integral_v<From> && (static_cast<From>(value) != from || (value < T{}) != (from < From{}))) throw "the constant doesn't fit a pixel";
    }
};
#endif

// The calls for cells of so many bytes.
template <std::size_t Size> struct calls;

#define IMGREF_CALLS_OF(SIZE, NAME, CELL)                                                                                    \
    template <> struct calls<SIZE> {                                                                                         \
        using cell = CELL;                                                                                                   \
        static constexpr auto get = imgref_##NAME##_get;                                                                     \
        static constexpr auto put = imgref_##NAME##_put;                                                                     \
        static constexpr auto fill_window = imgref_##NAME##_fill_window;                                                     \
        static constexpr auto copy_window = imgref_##NAME##_copy_window;                                                     \
        static constexpr auto move_window = imgref_##NAME##_move_window;                                                     \
        static constexpr auto mosaic = imgref_##NAME##_mosaic;                                                               \
        static constexpr auto fill_pixels = imgref_##NAME##_fill_pixels;                                                     \
        static constexpr auto mosaic_pixels = imgref_##NAME##_mosaic_pixels;                                                 \
        static constexpr auto count = imgref_##NAME##_count;                                                                 \
        static constexpr auto turn_into = imgref_##NAME##_turn_into;                                                         \
        static constexpr auto transpose_into = imgref_##NAME##_transpose_into;                                               \
        static constexpr auto turn = imgref_##NAME##_turn;                                                                   \
        static constexpr auto transpose = imgref_##NAME##_transpose;                                                         \
        static constexpr auto flip_rows = imgref_##NAME##_flip_rows;                                                         \
        static constexpr auto flip_columns = imgref_##NAME##_flip_columns;                                                   \
        static constexpr auto swap_rows = imgref_##NAME##_swap_rows;                                                         \
        static constexpr auto pack = imgref_##NAME##_pack;                                                                   \
        static constexpr auto equal = imgref_##NAME##_equal;                                                                 \
        static constexpr auto flood_fill = imgref_##NAME##_flood_fill;                                                       \
        static constexpr auto components = imgref_##NAME##_components;                                                       \
        static constexpr auto bounding_box = imgref_##NAME##_bounding_box;                                                   \
    };
IMGREF_CALLS_OF(1, u8, std::uint8_t)
IMGREF_CALLS_OF(2, u16, std::uint16_t)
IMGREF_CALLS_OF(4, u32, std::uint32_t)
IMGREF_CALLS_OF(8, u64, std::uint64_t)
#undef IMGREF_CALLS_OF

// The call that only cells of one and of two bytes have.
template <std::size_t Size> inline constexpr auto mosaic_means = imgref_u8_mosaic_means;
template <> inline constexpr auto mosaic_means<2> = imgref_u16_mosaic_means;

// The call that only these cells have, with a count for each value.
template <std::size_t Size> inline constexpr auto histogram = imgref_u8_histogram;
template <> inline constexpr auto histogram<2> = imgref_u16_histogram;

// What a view of no pixel may point to, since no pointer may be null.
inline std::uint64_t nowhere = 0;

} // namespace detail

// The windows of the tiles of a size, line by line, as `for (imgref::rect it : image.tiles(16, 16))`
// goes over them.
class tile_range {
public:
    class iterator {
    public:
        using iterator_category = std::input_iterator_tag;
        using value_type = rect;
        using difference_type = std::ptrdiff_t;
        using pointer = const rect *;
        using reference = rect;

        iterator() = default;
        iterator(const tile_range *tiles, std::size_t number) : tiles_(tiles), number_(number) {}
        rect operator*() const { return (*tiles_)[number_]; }
        iterator &operator++() {
            ++number_;
            return *this;
        }
        iterator operator++(int) {
            iterator before = *this;
            ++number_;
            return before;
        }
        friend bool operator==(const iterator &a, const iterator &b) { return a.number_ == b.number_; }
        friend bool operator!=(const iterator &a, const iterator &b) { return a.number_ != b.number_; }

    private:
        const tile_range *tiles_ = nullptr;
        std::size_t number_ = 0;
    };

    // Throws refused (IMGREF_NO_TILE) for a tile of no pixel.
    tile_range(std::size_t width, std::size_t height, std::size_t tile_width, std::size_t tile_height)
        : width_(width), height_(height), tile_width_(tile_width), tile_height_(tile_height) {
        detail::done(imgref_tile_count(width, height, tile_width, tile_height, &count_));
    }

    std::size_t size() const noexcept { return count_; }
    iterator begin() const { return {this, 0}; }
    iterator end() const { return {this, count_}; }
    // The tile of a number below size().
    rect operator[](std::size_t number) const {
        rect tile{};
        detail::done(imgref_tile(width_, height_, tile_width_, tile_height_, number, &tile));
        return tile;
    }

private:
    std::size_t width_, height_, tile_width_, tile_height_, count_ = 0;
};

template <class T> class view {
    static_assert(std::is_trivially_copyable_v<T>, "a pixel is copied as bytes");
    static_assert(sizeof(T) == 1 || sizeof(T) == 2 || sizeof(T) == 4 || sizeof(T) == 8, "a pixel has 1, 2, 4 or 8 bytes");
    static_assert(!std::is_volatile_v<T>, "a pixel isn't volatile");
    using calls = detail::calls<sizeof(T)>;
    using cell = typename calls::cell;
    template <class U> friend class view;
    template <class Value> using if_fits = std::enable_if_t<detail::fits<std::remove_cv_t<T>, Value>::value>;
    template <class Value> using if_other = std::enable_if_t<std::is_arithmetic_v<Value> && !detail::fits<std::remove_cv_t<T>, Value>::value>;
    template <class Value> static constexpr void needs_braces() {
        static_assert(!std::is_arithmetic_v<Value>, "write a constant in braces, as fill({255}), so that the compiler tests that it fits a pixel, and cast a variable");
    }

public:
    using element_type = T;
    using value_type = std::remove_cv_t<T>;
    using size_type = std::size_t;

    // The image of `len` pixels from a pointer on. Throws refused where they are no image of that
    // size and stride.
    view(T *pixels, std::size_t len, std::size_t width, std::size_t height, std::size_t stride)
        : pixels_(pixels), len_(len), width_(width), height_(height), stride_(stride) {
        if (reinterpret_cast<std::uintptr_t>(pixels) % sizeof(T)) throw std::invalid_argument("the pixels are misaligned");
        if (!pixels && len) throw std::invalid_argument("no pixels");
        if (!imgref_is_image(len, width, height, stride)) throw refused(IMGREF_NOT_AN_IMAGE);
    }

    // The same of a container with data() and size(), or of an array. Without a stride its rows are
    // joined.
    template <class Pixels, class = std::enable_if_t<std::is_convertible_v<decltype(std::data(std::declval<Pixels &>())), T *>>>
    view(Pixels &pixels, std::size_t width, std::size_t height, std::size_t stride)
        : view(std::data(pixels), std::size(pixels), width, height, stride) {}
    template <class Pixels, class = std::enable_if_t<std::is_convertible_v<decltype(std::data(std::declval<Pixels &>())), T *>>>
    view(Pixels &pixels, std::size_t width, std::size_t height) : view(pixels, width, height, width ? width : 1) {}

    // A view for reading of one for writing.
    template <class U, class = std::enable_if_t<std::is_same_v<const U, T> && !std::is_same_v<U, T>>>
    view(const view<U> &other) noexcept
        : pixels_(other.pixels_), len_(other.len_), width_(other.width_), height_(other.height_), stride_(other.stride_) {}

    T *data() const noexcept { return pixels_; }
    std::size_t size() const noexcept { return len_; }
    std::size_t width() const noexcept { return width_; }
    std::size_t height() const noexcept { return height_; }
    std::size_t stride() const noexcept { return stride_; }
    bool empty() const noexcept { return !width_ || !height_; }
    // The window of all.
    rect whole() const noexcept { return {0, 0, width_, height_}; }

    // The width() pixels of a row, for a loop. Throws refused where there is no such row.
    T *row(std::size_t y) const {
        if (y >= height_) throw refused(IMGREF_PLACE_OUTSIDE);
        return width_ ? pixels_ + y * stride_ : pixels_;
    }

    // The pixel in column x of row y.
    value_type get(std::size_t x, std::size_t y) const {
        cell bits = 0;
        detail::done(calls::get(cells(), len_, width_, height_, stride_, x, y, &bits));
        return value(bits);
    }

    // The pixel in column x of row y becomes `pixel`.
    template <class Value = value_type, class = if_fits<Value>> void put(std::size_t x, std::size_t y, const Value &pixel) const {
        detail::done(calls::put(written(), len_, width_, height_, stride_, x, y, bits(pixel)));
    }

    // Every pixel of the window, or of all, becomes `pixel`.
    template <class Value = value_type, class = if_fits<Value>> void fill(const rect &window, const Value &pixel) const {
        detail::done(calls::fill_window(written(), len_, width_, height_, stride_, window, bits(pixel)));
    }
    template <class Value = value_type, class = if_fits<Value>> void fill(const Value &pixel) const { fill(whole(), pixel); }
    // Four numbers in braces are a window whose value was forgotten: fill(whole(), {..}) gives all a pixel of four.
    void fill(const rect &window) const = delete;

    // The window, or all, gets the pixels of `source`, which has its size and shares no pixel with it:
    // it may be another window of one image.
    void copy(const rect &window, view<const value_type> source) const {
        cell *cells = written();
        if (shares(source)) return copy_within(window, source);
        detail::done(calls::copy_window(cells, len_, width_, height_, stride_, window, source.cells(), source.len_, source.width_,
                                        source.height_, source.stride_));
    }
    void copy(view<const value_type> source) const { copy(whole(), source); }

    // The window `to` gets the pixels that the window `from` had; they may overlap.
    void move(const rect &from, const rect &to) const {
        detail::done(calls::move_window(written(), len_, width_, height_, stride_, from, to));
    }

    // Each tile of the window, or of all, gets the pixel that was at the tile's corner.
    void mosaic(const rect &window, std::size_t tile_width, std::size_t tile_height) const {
        detail::done(calls::mosaic(written(), len_, width_, height_, stride_, window, tile_width, tile_height));
    }
    void mosaic(std::size_t tile_width, std::size_t tile_height) const { mosaic(whole(), tile_width, tile_height); }

    // The two for colours of N elements, 1 to 4. They throw refused (IMGREF_NOT_AN_IMAGE) for another
    // number of channels, and where the width is no multiple of it.
    template <std::size_t N> void fill_pixels(const rect &window, const value_type (&pixel)[N]) const {
        cell made[N];
        for (std::size_t k = 0; k < N; ++k) made[k] = bits(pixel[k]);
        detail::done(calls::fill_pixels(written(), len_, pixels_of(width_, N), height_, stride_, window, made, N));
    }
    void mosaic_pixels(std::size_t channels, const rect &window, std::size_t tile_width, std::size_t tile_height) const {
        detail::done(calls::mosaic_pixels(written(), len_, pixels_of(width_, channels), height_, stride_, channels, window, tile_width, tile_height));
    }

    // How many pixels of the window, or of all, have the value.
    template <class Value = value_type, class = if_fits<Value>> std::size_t count(const rect &window, const Value &value) const {
        return count_pixels<1>(window, {value});
    }
    template <class Value = value_type, class = if_fits<Value>> std::size_t count(const Value &value) const { return count(whole(), value); }

#if defined(__cpp_consteval)
    // The calls on a value with a constant of another type.
    void put(std::size_t x, std::size_t y, detail::constant<value_type> pixel) const { put(x, y, pixel.value); }
    void fill(const rect &window, detail::constant<value_type> pixel) const { fill(window, pixel.value); }
    void fill(detail::constant<value_type> pixel) const { fill(whole(), pixel.value); }
    std::size_t count(const rect &window, detail::constant<value_type> value) const { return count(window, value.value); }
    std::size_t count(detail::constant<value_type> value) const { return count(whole(), value.value); }
#else
    // A number of another type doesn't compile, and the message says what does.
    template <class Value, class = if_other<Value>, class = void> void put(std::size_t, std::size_t, const Value &) const { needs_braces<Value>(); }
    template <class Value, class = if_other<Value>, class = void> void fill(const rect &, const Value &) const { needs_braces<Value>(); }
    template <class Value, class = if_other<Value>, class = void> void fill(const Value &) const { needs_braces<Value>(); }
    template <class Value, class = if_other<Value>, class = void> std::size_t count(const rect &, const Value &) const { return needs_braces<Value>(), 0; }
    template <class Value, class = if_other<Value>, class = void> std::size_t count(const Value &) const { return needs_braces<Value>(), 0; }
#endif

    // The same of colours of N elements, as fill_pixels has them.
    template <std::size_t N> std::size_t count_pixels(const rect &window, const value_type (&value)[N]) const {
        cell made[N];
        std::size_t found = 0;
        for (std::size_t k = 0; k < N; ++k) made[k] = bits(value[k]);
        detail::done(calls::count(cells(), len_, pixels_of(width_, N), height_, stride_, window, made, N, &found));
        return found;
    }

    // Each tile of the window gets the mean of its colours, which have that number of channels. It is
    // rounded to the nearest number. Only for unsigned elements of one and of two bytes.
    void mosaic_means(std::size_t channels, const rect &window, std::size_t tile_width, std::size_t tile_height) const {
        static_assert(std::is_same_v<value_type, std::uint8_t> || std::is_same_v<value_type, std::uint16_t>, "no mean is taken of these");
        detail::done(detail::mosaic_means<sizeof(cell)>(written(), len_, pixels_of(width_, channels), height_, stride_, channels, window, tile_width, tile_height));
    }

    // Each pixel of the window becomes the mean of the box around it, rounded to the nearest number. The
    // box has `across` pixels on the left and on the right, and `down` above and below, or `radius` on each
    // side. It is cut at the window's edges. Pixels have that number of channels, each a mean of its own,
    // and the window and the box are counted in pixels. Only for bytes. Allocates a copy of the window, and
    // a number for each element of a row.
    void blur(const rect &window, std::size_t across, std::size_t down, std::size_t channels = 1) const {
        static_assert(std::is_same_v<value_type, std::uint8_t>, "only bytes are blurred");
        const std::size_t width = pixels_of(width_, channels);
        std::size_t bytes = 0, numbers = 0;
        detail::done(imgref_blur_room(len_, width, height_, stride_, channels, window, &bytes, &numbers));
        // (with one more, since no pointer may be null)
        const std::unique_ptr<std::uint8_t[]> copy(new std::uint8_t[bytes + 1]);
        const std::unique_ptr<std::uint32_t[]> sums(new std::uint32_t[numbers + 1]);
        detail::done(imgref_u8_blur(written(), len_, width, height_, stride_, channels, window, across, down, copy.get(), bytes, sums.get(), numbers));
    }
    void blur(const rect &window, std::size_t radius) const { blur(window, radius, radius); }
    void blur(std::size_t radius) const { blur(whole(), radius); }

    // How many pixels have each value. Only for unsigned pixels of one and of two bytes.
    std::vector<std::uint64_t> histogram() const {
        static_assert(std::is_same_v<value_type, std::uint8_t> || std::is_same_v<value_type, std::uint16_t>, "no table has a count for each of these values");
        std::vector<std::uint64_t> counts(std::size_t(1) << 8 * sizeof(cell));
        detail::done(detail::histogram<sizeof(cell)>(cells(), len_, width_, height_, stride_, counts.data()));
        return counts;
    }

    // Spreads the values over 0 to 255: each pixel becomes the part of 255 that the pixels up to its
    // value are of all, rounded down. Only for bytes.
    void equalize() const {
        static_assert(std::is_same_v<value_type, std::uint8_t>, "only bytes are spread");
        detail::done(imgref_u8_equalize(written(), len_, width_, height_, stride_));
    }

    // Each pixel of `areas`, which has this size, becomes the sum of the pixels up to its column in the
    // rows up to its own. Only for bytes.
    void integral_into(view<std::uint64_t> areas) const {
        static_assert(std::is_same_v<value_type, std::uint8_t>, "only bytes are summed");
        needs_beside(areas);
        detail::done(imgref_u8_integral(cells(), len_, width_, height_, stride_, areas.written(), areas.len_, areas.stride_));
    }

    // The pixel in column x of row y becomes `pixel`, and so does each that is connected with it: over
    // sides, and over pixels of the same bits. Allocates a number for each place.
    template <class Value = value_type, class = if_fits<Value>> void flood_fill(std::size_t x, std::size_t y, const Value &pixel) const {
        const auto room = room_of_all();
        detail::done(calls::flood_fill(written(), len_, width_, height_, stride_, x, y, bits(pixel), room.get(), width_ * height_));
    }

    // Each pixel of `labels`, which has this size, becomes the label of its connected component, and the
    // number of components is returned. The labels begin at 1. Two places have one label exactly if they
    // are connected, as in flood_fill. Allocates a number for each place.
    std::size_t components_into(view<std::uint64_t> labels) const {
        needs_beside(labels);
        const auto room = room_of_all();
        std::uint64_t count = 0;
        detail::done(calls::components(cells(), len_, width_, height_, stride_, labels.written(), labels.len_, labels.stride_, room.get(), width_ * height_, &count));
        return static_cast<std::size_t>(count);
    }

    // The least window that has every place with a value. With a label it is the box around its component.
    // It is empty where no place has the value.
    template <class Value = value_type, class = if_fits<Value>> rect bounding_box(const Value &value) const {
        rect around{};
        detail::done(calls::bounding_box(cells(), len_, width_, height_, stride_, bits(value), &around));
        return around;
    }

    // Writes this image, turned or transposed, to `target`, which has the size of the turned one and
    // shares no memory with this image.
    void turn_into(view<value_type> target, imgref::turn by, std::size_t channels = 1) const {
        if (target.shares(*this)) throw std::invalid_argument("the images share memory");
        detail::done(calls::turn_into(target.written(), target.len_, pixels_of(target.width_, channels), target.height_, target.stride_, channels,
                                      cells(), len_, pixels_of(width_, channels), height_, stride_, static_cast<imgref_turn>(by)));
    }
    void transpose_into(view<value_type> target, std::size_t channels = 1) const {
        if (target.shares(*this)) throw std::invalid_argument("the images share memory");
        detail::done(calls::transpose_into(target.written(), target.len_, pixels_of(target.width_, channels), target.height_, target.stride_,
                                           channels, cells(), len_, pixels_of(width_, channels), height_, stride_));
    }

    // Turns or transposes this image in place. It has to be a square, unless it is turned by a half.
    // Pixels are as in turn_into.
    void turn(imgref::turn by, std::size_t channels = 1) const {
        detail::done_in_place(calls::turn(written(), len_, pixels_of(width_, channels), height_, stride_, channels, static_cast<imgref_turn>(by)));
    }
    void transpose(std::size_t channels = 1) const {
        detail::done_in_place(calls::transpose(written(), len_, pixels_of(width_, channels), height_, stride_, channels));
    }

    // The first row of the window, or of all, changes places with the last, and so on. Only a window
    // needs `channels`, by which it is counted: whole rows are the same whatever a pixel is.
    void flip_rows(const rect &window, std::size_t channels = 1) const {
        detail::done(calls::flip_rows(written(), len_, pixels_of(width_, channels), height_, stride_, channels, window));
    }
    void flip_rows() const { flip_rows(whole()); }

    // In each row of the window, or of all, the first pixel changes places with the last, and so on.
    void flip_columns(const rect &window, std::size_t channels = 1) const {
        detail::done(calls::flip_columns(written(), len_, pixels_of(width_, channels), height_, stride_, channels, window));
    }
    void flip_columns(std::size_t channels = 1) const { flip_columns({0, 0, pixels_of(width_, channels), height_}, channels); }

    // Rows y and z change places: whole rows, so it takes no `channels`.
    void swap_rows(std::size_t y, std::size_t z) const { detail::done(calls::swap_rows(written(), len_, width_, height_, stride_, 1, y, z)); }

    // The rows are joined at the front of the memory, over what lies between them: after a window
    // that is its parent's pixels. The stride of this view is the width from now on, or 1 for width
    // 0. Other views over the memory show moved pixels.
    void pack() {
        detail::done(calls::pack(written(), len_, width_, height_, stride_));
        stride_ = width_ ? width_ : 1;
    }

    // The window as a view over the same memory.
    view window(const rect &window) const {
        std::size_t start = 0, count = 0;
        detail::done(imgref_window(len_, width_, height_, stride_, window, &start, &count));
        view made = *this;
        made.pixels_ = count ? pixels_ + start : pixels_;
        made.len_ = count;
        made.width_ = window.width;
        made.height_ = window.height;
        return made;
    }

    tile_range tiles(std::size_t tile_width, std::size_t tile_height) const { return {width_, height_, tile_width, tile_height}; }

#ifdef IMGREF_HAS_MDSPAN
    // The image of an mdspan of rows and columns whose columns have no gaps. Throws
    // std::invalid_argument where they have.
    template <class Extents, class Layout>
    explicit view(const std::mdspan<T, Extents, Layout> &other)
        : view(other.data_handle(), other.mapping().required_span_size(), other.extent(1), other.extent(0), row_step(other)) {}

    // The pixels as an mdspan of rows and columns: [y, x].
    std::mdspan<T, std::dextents<std::size_t, 2>, std::layout_stride> as_mdspan() const {
        using extents = std::dextents<std::size_t, 2>;
        std::array<std::size_t, 2> steps{stride_, 1};
        return {pixels_, std::layout_stride::mapping<extents>(extents(height_, width_), steps)};
    }
#endif

private:
    const cell *cells() const noexcept {
        return pixels_ ? reinterpret_cast<const cell *>(pixels_) : reinterpret_cast<const cell *>(&detail::nowhere);
    }

    cell *written() const noexcept {
        static_assert(!std::is_const_v<T>, "this view is for reading: a view<T> without const writes");
        return pixels_ ? reinterpret_cast<cell *>(pixels_) : reinterpret_cast<cell *>(&detail::nowhere);
    }

    // The colours of a row of so many elements.
    static std::size_t pixels_of(std::size_t width, std::size_t channels) {
        if (!channels || width % channels) throw refused(IMGREF_NOT_AN_IMAGE, "the width is no multiple of the channels");
        return width / channels;
    }

    // A number for each place, and one more, since no pointer may be null.
    std::unique_ptr<std::size_t[]> room_of_all() const { return std::unique_ptr<std::size_t[]>(new std::size_t[width_ * height_ + 1]); }

    template <class U> bool shares(const view<U> &other) const noexcept {
        std::less<const void *> before;
        return len_ && other.len_ && before(pixels_, other.pixels_ + other.len_) && before(other.pixels_, pixels_ + len_);
    }

    // Whether no pixel of this image is one of the other's, as far as equal strides tell it. The one that
    // begins first has its columns in front, and the other begins so many rows and columns after it.
    bool is_apart(const view<const value_type> &other) const noexcept {
        if (empty() || other.empty() || !shares(other)) return true;
        if (stride_ != other.stride_) return false;
        const view<const value_type> self = *this;
        std::less<const void *> before;
        const bool is_first = !before(other.pixels_, self.pixels_);
        const view<const value_type> &first = is_first ? self : other, &second = is_first ? other : self;
        const std::size_t away = static_cast<std::size_t>(second.pixels_ - first.pixels_), rows = away / stride_, columns = away % stride_;
        return (columns >= first.width_ || rows >= first.height_) && (second.width_ <= stride_ - columns || rows + 1 >= first.height_);
    }

    // A copy between windows of one image that share no pixel: row by row, since their rows alternate in memory.
    void copy_within(const rect &window, const view<const value_type> &source) const {
        const view part = this->window(window);
        if (part.width_ != source.width_ || part.height_ != source.height_) throw refused(IMGREF_SIZES_DIFFER);
        if (!part.is_apart(source)) throw std::invalid_argument("the images share pixels: move goes within one");
        for (std::size_t y = 0; y < part.height_ && part.width_; ++y)
            detail::done(calls::copy_window(part.written() + y * stride_, part.width_, part.width_, 1, part.width_, {0, 0, part.width_, 1},
                                            source.cells() + y * source.stride_, part.width_, part.width_, 1, part.width_));
    }

    // Refuses a target for a number of each pixel that has another size, or shares memory with this image.
    void needs_beside(const view<std::uint64_t> &numbers) const {
        if (numbers.width_ != width_ || numbers.height_ != height_) throw refused(IMGREF_SIZES_DIFFER);
        if (shares(numbers)) throw std::invalid_argument("the images share memory");
    }

    static cell bits(const value_type &pixel) noexcept {
        cell made;
        std::memcpy(&made, &pixel, sizeof made);
        return made;
    }

    static value_type value(const cell &bits) noexcept {
        std::remove_const_t<value_type> made;
        std::memcpy(&made, &bits, sizeof made);
        return made;
    }

#ifdef IMGREF_HAS_MDSPAN
    template <class Extents, class Layout> static std::size_t row_step(const std::mdspan<T, Extents, Layout> &other) {
        static_assert(Extents::rank() == 2, "an image has rows and columns");
        if (!other.is_strided() || (other.extent(1) > 1 && other.stride(1) != 1)) throw std::invalid_argument("the columns have gaps");
        std::size_t width = static_cast<std::size_t>(other.extent(1));
        return other.extent(0) > 1 && width ? static_cast<std::size_t>(other.stride(0)) : width ? width : 1;
    }
#endif

    T *pixels_;
    std::size_t len_, width_, height_, stride_;
};

template <class Pixels> view(Pixels &, std::size_t, std::size_t) -> view<std::remove_pointer_t<decltype(std::data(std::declval<Pixels &>()))>>;
template <class Pixels>
view(Pixels &, std::size_t, std::size_t, std::size_t) -> view<std::remove_pointer_t<decltype(std::data(std::declval<Pixels &>()))>>;
template <class T> view(T *, std::size_t, std::size_t, std::size_t, std::size_t) -> view<T>;

// A view over colours of N elements (1 to 4), next to one another in a row: RGB of bytes has N = 3.
//
//     std::vector<unsigned char> bytes(640 * 480 * 3);
//     auto image = imgref::colours<3>(bytes, 640, 480);
//     image.fill({8, 8, 64, 64}, {255, 0, 0});
//     image.turn(imgref::turn::half);
//
// Widths, columns and tiles are counted in colours in every call, and the stride in elements. What
// goes by single elements isn't here: values and sums, floods, labels and boxes. They are calls of
// a view of one channel, or of a view of a struct of 2, 4 or 8 bytes.
template <class T, std::size_t N> class colour_view {
    static_assert(N >= 1 && N <= 4, "a colour has 1 to 4 elements");
    template <class U, std::size_t M> friend class colour_view;

public:
    using element_type = T;
    using element = std::remove_cv_t<T>;
    using value_type = std::array<element, N>;

    // The image of `len` elements from a pointer on. Throws refused where they are no image of that
    // size and stride.
    colour_view(T *elements, std::size_t len, std::size_t width, std::size_t height, std::size_t stride) : elements_(elements, len, in_elements(width), height, stride) {}
    // The same of a container with data() and size(), or of an array. Without a stride its rows are
    // joined.
    template <class Elements, class = std::enable_if_t<std::is_convertible_v<decltype(std::data(std::declval<Elements &>())), T *>>>
    colour_view(Elements &elements, std::size_t width, std::size_t height, std::size_t stride) : elements_(elements, in_elements(width), height, stride) {}
    template <class Elements, class = std::enable_if_t<std::is_convertible_v<decltype(std::data(std::declval<Elements &>())), T *>>>
    colour_view(Elements &elements, std::size_t width, std::size_t height) : elements_(elements, in_elements(width), height) {}
    // Throws refused (IMGREF_NOT_AN_IMAGE) where a row of the view is no row of whole colours.
    explicit colour_view(const view<T> &elements) : elements_(elements) {
        if (elements.width() % N) throw refused(IMGREF_NOT_AN_IMAGE, "the width is no multiple of the channels");
    }
    // A view for reading of one for writing.
    template <class U, class = std::enable_if_t<std::is_same_v<const U, T> && !std::is_same_v<U, T>>> colour_view(const colour_view<U, N> &other) noexcept : elements_(other.elements_) {}

    static constexpr std::size_t channels() noexcept { return N; }
    std::size_t width() const noexcept { return elements_.width() / N; }
    std::size_t height() const noexcept { return elements_.height(); }
    std::size_t stride() const noexcept { return elements_.stride(); }
    bool empty() const noexcept { return elements_.empty(); }
    // The window of all.
    rect whole() const noexcept { return {std::size_t(0), std::size_t(0), width(), height()}; }
    // The view of the single elements.
    view<T> elements() const noexcept { return elements_; }

    // The colour in column x of row y.
    value_type get(std::size_t x, std::size_t y) const {
        const T *found = at(x, y);
        value_type made;
        std::copy(found, found + N, made.begin());
        return made;
    }
    // It becomes `colour`, in braces or as `get` returns one.
    template <std::size_t M> void put(std::size_t x, std::size_t y, const element (&colour)[M]) const { std::copy(whole_colour(colour), colour + N, at(x, y)); }
    template <class C, class = std::enable_if_t<std::is_same_v<C, value_type>>> void put(std::size_t x, std::size_t y, const C &colour) const { std::copy(colour.begin(), colour.end(), at(x, y)); }

    // Every colour of the window becomes `colour`. For all the window is whole().
    template <std::size_t M> void fill(const rect &window, const element (&colour)[M]) const { elements_.fill_pixels(window, whole_colour(colour)); }
    template <class C, class = std::enable_if_t<std::is_same_v<C, value_type>>> void fill(const rect &window, const C &colour) const { elements_.fill_pixels(window, plain(colour).elements); }
    // How many colours of the window are `colour`.
    template <std::size_t M> std::size_t count(const rect &window, const element (&colour)[M]) const { return elements_.count_pixels(window, whole_colour(colour)); }
    template <class C, class = std::enable_if_t<std::is_same_v<C, value_type>>> std::size_t count(const rect &window, const C &colour) const { return elements_.count_pixels(window, plain(colour).elements); }

    // The calls of a view, as they are there.
    void copy(const rect &window, const colour_view<const element, N> &source) const { elements_.copy(in_elements(window), source.elements_); }
    void copy(const colour_view<const element, N> &source) const { copy(whole(), source); }
    void move(const rect &from, const rect &to) const { elements_.move(in_elements(from), in_elements(to)); }
    void mosaic(const rect &window, std::size_t tile_width, std::size_t tile_height) const { elements_.mosaic_pixels(N, window, tile_width, tile_height); }
    void mosaic_means(const rect &window, std::size_t tile_width, std::size_t tile_height) const { elements_.mosaic_means(N, window, tile_width, tile_height); }
    void blur(const rect &window, std::size_t across, std::size_t down) const { elements_.blur(window, across, down, N); }
    void blur(const rect &window, std::size_t radius) const { blur(window, radius, radius); }
    void blur(std::size_t radius) const { blur(whole(), radius); }
    void turn_into(const colour_view<element, N> &target, imgref::turn by) const { elements_.turn_into(target.elements_, by, N); }
    void transpose_into(const colour_view<element, N> &target) const { elements_.transpose_into(target.elements_, N); }
    void turn(imgref::turn by) const { elements_.turn(by, N); }
    void transpose() const { elements_.transpose(N); }
    void flip_rows(const rect &window) const { elements_.flip_rows(window, N); }
    void flip_rows() const { elements_.flip_rows(); }
    void flip_columns(const rect &window) const { elements_.flip_columns(window, N); }
    void flip_columns() const { elements_.flip_columns(N); }
    void swap_rows(std::size_t y, std::size_t z) const { elements_.swap_rows(y, z); }
    void pack() { elements_.pack(); }
    colour_view window(const rect &window) const { return colour_view(elements_.window(in_elements(window))); }
    tile_range tiles(std::size_t tile_width, std::size_t tile_height) const { return {width(), height(), tile_width, tile_height}; }

private:
    // A colour as the calls of a view take it.
    struct plain {
        explicit plain(const value_type &colour) noexcept { std::copy(colour.begin(), colour.end(), elements); }
        element elements[N];
    };

    // (an array of N would take fewer elements in braces too, and zeros for the others)
    template <std::size_t M> static const element (&whole_colour(const element (&colour)[M]) noexcept)[M] {
        static_assert(M == N, "a colour has as many elements as the view has channels");
        return colour;
    }

    // A number of colours in elements. What is too large for any image stays so.
    static constexpr std::size_t in_elements(std::size_t number) noexcept { return number > static_cast<std::size_t>(-1) / N ? static_cast<std::size_t>(-1) : number * N; }
    static rect in_elements(const rect &it) noexcept { return {in_elements(it.left), it.top, in_elements(it.width), it.height}; }

    T *at(std::size_t x, std::size_t y) const {
        if (x >= width()) throw refused(IMGREF_PLACE_OUTSIDE);
        return elements_.row(y) + x * N;
    }

    view<T> elements_;
};

// The view over the colours of a container, or of `len` elements from a pointer on.
template <std::size_t N, class Elements> auto colours(Elements &elements, std::size_t width, std::size_t height, std::size_t stride) {
    return colour_view<std::remove_pointer_t<decltype(std::data(elements))>, N>(elements, width, height, stride);
}
template <std::size_t N, class Elements> auto colours(Elements &elements, std::size_t width, std::size_t height) {
    return colour_view<std::remove_pointer_t<decltype(std::data(elements))>, N>(elements, width, height);
}
template <std::size_t N, class T> colour_view<T, N> colours(T *elements, std::size_t len, std::size_t width, std::size_t height, std::size_t stride) {
    return colour_view<T, N>(elements, len, width, height, stride);
}

// Whether two images have one size and equal bits in every pixel. Strides and padding don't count.
template <class T> bool equal(const view<const T> &one, const view<const T> &other) {
    using calls = detail::calls<sizeof(T)>;
    bool is_equal = false;
    const auto *first = one.data() ? static_cast<const void *>(one.data()) : &detail::nowhere;
    const auto *second = other.data() ? static_cast<const void *>(other.data()) : &detail::nowhere;
    using cell = typename calls::cell;
    detail::done(calls::equal(static_cast<const cell *>(first), one.size(), one.width(), one.height(), one.stride(),
                              static_cast<const cell *>(second), other.size(), other.width(), other.height(), other.stride(), &is_equal));
    return is_equal;
}

template <class T, class U> std::enable_if_t<std::is_same_v<std::remove_const_t<T>, std::remove_const_t<U>>, bool> operator==(const view<T> &one, const view<U> &other) {
    return equal<std::remove_const_t<T>>(one, other);
}
template <class T, class U> std::enable_if_t<std::is_same_v<std::remove_const_t<T>, std::remove_const_t<U>>, bool> operator!=(const view<T> &one, const view<U> &other) {
    return !equal<std::remove_const_t<T>>(one, other);
}

template <class T, class U, std::size_t N> bool operator==(const colour_view<T, N> &one, const colour_view<U, N> &other) { return one.elements() == other.elements(); }
template <class T, class U, std::size_t N> bool operator!=(const colour_view<T, N> &one, const colour_view<U, N> &other) { return !(one == other); }

} // namespace imgref

#endif
