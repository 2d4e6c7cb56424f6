//! The functions of the library.

use crate::Window;

extern "C" {
    pub(crate) fn imgref_is_image(len: usize, width: usize, height: usize, stride: usize) -> bool;
    pub(crate) fn imgref_window(len: usize, width: usize, height: usize, stride: usize, window: Window, start: *mut usize, count: *mut usize) -> u32;
    pub(crate) fn imgref_tile_count(width: usize, height: usize, tile_width: usize, tile_height: usize, count: *mut usize) -> u32;
    pub(crate) fn imgref_tile(width: usize, height: usize, tile_width: usize, tile_height: usize, number: usize, window: *mut Window) -> u32;
    pub(crate) fn imgref_u8_histogram(cells: *const u8, len: usize, width: usize, height: usize, stride: usize, counts: *mut [u64; 256]) -> u32;
    pub(crate) fn imgref_u16_histogram(cells: *const u16, len: usize, width: usize, height: usize, stride: usize, counts: *mut u64) -> u32;
    pub(crate) fn imgref_u8_equalize(cells: *mut u8, len: usize, width: usize, height: usize, stride: usize) -> u32;
    pub(crate) fn imgref_u8_integral(cells: *const u8, len: usize, width: usize, height: usize, stride: usize, areas: *mut u64, areas_len: usize, areas_stride: usize) -> u32;
    pub(crate) fn imgref_blur_room(len: usize, width: usize, height: usize, stride: usize, channels: usize, window: Window, copy_len: *mut usize, sums_len: *mut usize) -> u32;
    fn imgref_u8_blur(cells: *mut u8, len: usize, width: usize, height: usize, stride: usize, channels: usize, window: Window, across: usize, down: usize, copy: *mut u8, copy_len: usize, sums: *mut u32, sums_len: usize) -> u32;
    fn imgref_u8_mosaic_means(cells: *mut u8, len: usize, width: usize, height: usize, stride: usize, channels: usize, window: Window, tile_width: usize, tile_height: usize) -> u32;
    fn imgref_u16_mosaic_means(cells: *mut u16, len: usize, width: usize, height: usize, stride: usize, channels: usize, window: Window, tile_width: usize, tile_height: usize) -> u32;
}

mod sealed {
    pub trait Sealed {}
}

/// A cell of the library, of which a pixel has 1 to 4: `u8`, `u16`, `u32` or `u64`.
pub trait Cell: Copy + sealed::Sealed {
    #[doc(hidden)]
    const CALLS: Calls<Self>;
    /// The call that only cells of one and of two bytes have.
    #[doc(hidden)]
    const MOSAIC_MEANS: Option<MosaicMeans<Self>>;
    /// The call that only cells of one byte have.
    #[doc(hidden)]
    const BLUR: Option<Blur<Self>>;
}

#[doc(hidden)]
pub type MosaicMeans<T> = unsafe extern "C" fn(*mut T, usize, usize, usize, usize, usize, Window, usize, usize) -> u32;

#[doc(hidden)]
pub type Blur<T> = unsafe extern "C" fn(*mut T, usize, usize, usize, usize, usize, Window, usize, usize, *mut u8, usize, *mut u32, usize) -> u32;

#[doc(hidden)]
pub struct Calls<T> {
    pub(crate) copy_window: unsafe extern "C" fn(*mut T, usize, usize, usize, usize, Window, *const T, usize, usize, usize, usize) -> u32,
    pub(crate) move_window: unsafe extern "C" fn(*mut T, usize, usize, usize, usize, Window, Window) -> u32,
    pub(crate) fill_pixels: unsafe extern "C" fn(*mut T, usize, usize, usize, usize, Window, *const T, usize) -> u32,
    pub(crate) mosaic_pixels: unsafe extern "C" fn(*mut T, usize, usize, usize, usize, usize, Window, usize, usize) -> u32,
    pub(crate) count: unsafe extern "C" fn(*const T, usize, usize, usize, usize, Window, *const T, usize, *mut usize) -> u32,
    pub(crate) turn_into: unsafe extern "C" fn(*mut T, usize, usize, usize, usize, usize, *const T, usize, usize, usize, usize, u32) -> u32,
    pub(crate) transpose_into: unsafe extern "C" fn(*mut T, usize, usize, usize, usize, usize, *const T, usize, usize, usize, usize) -> u32,
    pub(crate) turn: unsafe extern "C" fn(*mut T, usize, usize, usize, usize, usize, u32) -> u32,
    pub(crate) transpose: unsafe extern "C" fn(*mut T, usize, usize, usize, usize, usize) -> u32,
    pub(crate) flip_rows: unsafe extern "C" fn(*mut T, usize, usize, usize, usize, usize, Window) -> u32,
    pub(crate) flip_columns: unsafe extern "C" fn(*mut T, usize, usize, usize, usize, usize, Window) -> u32,
    pub(crate) swap_rows: unsafe extern "C" fn(*mut T, usize, usize, usize, usize, usize, usize, usize) -> u32,
    pub(crate) pack: unsafe extern "C" fn(*mut T, usize, usize, usize, usize) -> u32,
    pub(crate) equal: unsafe extern "C" fn(*const T, usize, usize, usize, usize, *const T, usize, usize, usize, usize, *mut bool) -> u32,
    pub(crate) flood_fill: unsafe extern "C" fn(*mut T, usize, usize, usize, usize, usize, usize, T, *mut usize, usize) -> u32,
    pub(crate) components: unsafe extern "C" fn(*const T, usize, usize, usize, usize, *mut u64, usize, usize, *mut usize, usize, *mut u64) -> u32,
    pub(crate) bounding_box: unsafe extern "C" fn(*const T, usize, usize, usize, usize, T, *mut Window) -> u32,
}

macro_rules! cells {
    ($($module:ident $cell:ty, $means:expr, $blur:expr; $copy_window:literal $move_window:literal $fill_pixels:literal $mosaic_pixels:literal $count:literal $turn_into:literal $transpose_into:literal $turn:literal $transpose:literal $flip_rows:literal $flip_columns:literal $swap_rows:literal $pack:literal $equal:literal $flood_fill:literal $components:literal $bounding_box:literal;)*) => {$(
        mod $module {
            use super::{sealed, Calls, Cell, Window};

            // (the header declares these functions for this type)
            extern "C" {
                #[link_name = $copy_window]
                fn copy_window(cells: *mut $cell, len: usize, width: usize, height: usize, stride: usize, window: Window, source: *const $cell, source_len: usize, source_width: usize, source_height: usize, source_stride: usize) -> u32;
                #[link_name = $move_window]
                fn move_window(cells: *mut $cell, len: usize, width: usize, height: usize, stride: usize, from: Window, to: Window) -> u32;
                #[link_name = $fill_pixels]
                fn fill_pixels(cells: *mut $cell, len: usize, width: usize, height: usize, stride: usize, window: Window, pixel: *const $cell, channels: usize) -> u32;
                #[link_name = $mosaic_pixels]
                fn mosaic_pixels(cells: *mut $cell, len: usize, width: usize, height: usize, stride: usize, channels: usize, window: Window, tile_width: usize, tile_height: usize) -> u32;
                #[link_name = $count]
                fn count(cells: *const $cell, len: usize, width: usize, height: usize, stride: usize, window: Window, value: *const $cell, channels: usize, count: *mut usize) -> u32;
                #[link_name = $turn_into]
                fn turn_into(cells: *mut $cell, len: usize, width: usize, height: usize, stride: usize, channels: usize, source: *const $cell, source_len: usize, source_width: usize, source_height: usize, source_stride: usize, turn: u32) -> u32;
                #[link_name = $transpose_into]
                fn transpose_into(cells: *mut $cell, len: usize, width: usize, height: usize, stride: usize, channels: usize, source: *const $cell, source_len: usize, source_width: usize, source_height: usize, source_stride: usize) -> u32;
                #[link_name = $turn]
                fn turn(cells: *mut $cell, len: usize, width: usize, height: usize, stride: usize, channels: usize, turn: u32) -> u32;
                #[link_name = $transpose]
                fn transpose(cells: *mut $cell, len: usize, width: usize, height: usize, stride: usize, channels: usize) -> u32;
                #[link_name = $flip_rows]
                fn flip_rows(cells: *mut $cell, len: usize, width: usize, height: usize, stride: usize, channels: usize, window: Window) -> u32;
                #[link_name = $flip_columns]
                fn flip_columns(cells: *mut $cell, len: usize, width: usize, height: usize, stride: usize, channels: usize, window: Window) -> u32;
                #[link_name = $swap_rows]
                fn swap_rows(cells: *mut $cell, len: usize, width: usize, height: usize, stride: usize, channels: usize, y: usize, z: usize) -> u32;
                #[link_name = $pack]
                fn pack(cells: *mut $cell, len: usize, width: usize, height: usize, stride: usize) -> u32;
                #[link_name = $equal]
                fn equal(cells: *const $cell, len: usize, width: usize, height: usize, stride: usize, other: *const $cell, other_len: usize, other_width: usize, other_height: usize, other_stride: usize, equal: *mut bool) -> u32;
                #[link_name = $flood_fill]
                fn flood_fill(cells: *mut $cell, len: usize, width: usize, height: usize, stride: usize, x: usize, y: usize, value: $cell, room: *mut usize, room_len: usize) -> u32;
                #[link_name = $components]
                fn components(cells: *const $cell, len: usize, width: usize, height: usize, stride: usize, labels: *mut u64, labels_len: usize, labels_stride: usize, room: *mut usize, room_len: usize, count: *mut u64) -> u32;
                #[link_name = $bounding_box]
                fn bounding_box(cells: *const $cell, len: usize, width: usize, height: usize, stride: usize, value: $cell, around: *mut Window) -> u32;
            }

            impl sealed::Sealed for $cell {}

            impl Cell for $cell {
                const MOSAIC_MEANS: Option<super::MosaicMeans<Self>> = $means;
                const BLUR: Option<super::Blur<Self>> = $blur;
                const CALLS: Calls<Self> = Calls { copy_window, move_window, fill_pixels, mosaic_pixels, count, turn_into, transpose_into, turn, transpose, flip_rows, flip_columns, swap_rows, pack, equal, flood_fill, components, bounding_box };
            }
        }
    )*};
}

cells! {
    of_u8 u8, Some(super::imgref_u8_mosaic_means), Some(super::imgref_u8_blur); "imgref_u8_copy_window" "imgref_u8_move_window" "imgref_u8_fill_pixels" "imgref_u8_mosaic_pixels" "imgref_u8_count" "imgref_u8_turn_into" "imgref_u8_transpose_into" "imgref_u8_turn" "imgref_u8_transpose" "imgref_u8_flip_rows" "imgref_u8_flip_columns" "imgref_u8_swap_rows" "imgref_u8_pack" "imgref_u8_equal" "imgref_u8_flood_fill" "imgref_u8_components" "imgref_u8_bounding_box";
    of_u16 u16, Some(super::imgref_u16_mosaic_means), None; "imgref_u16_copy_window" "imgref_u16_move_window" "imgref_u16_fill_pixels" "imgref_u16_mosaic_pixels" "imgref_u16_count" "imgref_u16_turn_into" "imgref_u16_transpose_into" "imgref_u16_turn" "imgref_u16_transpose" "imgref_u16_flip_rows" "imgref_u16_flip_columns" "imgref_u16_swap_rows" "imgref_u16_pack" "imgref_u16_equal" "imgref_u16_flood_fill" "imgref_u16_components" "imgref_u16_bounding_box";
    of_u32 u32, None, None; "imgref_u32_copy_window" "imgref_u32_move_window" "imgref_u32_fill_pixels" "imgref_u32_mosaic_pixels" "imgref_u32_count" "imgref_u32_turn_into" "imgref_u32_transpose_into" "imgref_u32_turn" "imgref_u32_transpose" "imgref_u32_flip_rows" "imgref_u32_flip_columns" "imgref_u32_swap_rows" "imgref_u32_pack" "imgref_u32_equal" "imgref_u32_flood_fill" "imgref_u32_components" "imgref_u32_bounding_box";
    of_u64 u64, None, None; "imgref_u64_copy_window" "imgref_u64_move_window" "imgref_u64_fill_pixels" "imgref_u64_mosaic_pixels" "imgref_u64_count" "imgref_u64_turn_into" "imgref_u64_transpose_into" "imgref_u64_turn" "imgref_u64_transpose" "imgref_u64_flip_rows" "imgref_u64_flip_columns" "imgref_u64_swap_rows" "imgref_u64_pack" "imgref_u64_equal" "imgref_u64_flood_fill" "imgref_u64_components" "imgref_u64_bounding_box";
}
