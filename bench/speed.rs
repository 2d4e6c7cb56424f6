//! The loops that a programmer writes in Rust, and, with `--cfg beside_crate`, the calls of the Rust crate: what bench/speed.c
//! times beside the calls. tools/bench.py compiles it where there is a rustc.
#![allow(clippy::missing_safety_doc)]

use std::hash::{DefaultHasher, Hash, Hasher};
use std::slice::{from_raw_parts, from_raw_parts_mut};

/// What speed.h has.
#[repr(C)]
pub struct Job {
    cells: *mut u8,
    source: *mut u8,
    side: usize,
    stride: usize,
    source_stride: usize,
    len: usize,
    source_len: usize,
    answer: u64,
}

impl Job {
    unsafe fn cells<'a, T>(&self) -> &'a mut [T] {
        unsafe { from_raw_parts_mut(self.cells.cast(), self.len) }
    }

    unsafe fn source<'a, T>(&self) -> &'a [T] {
        unsafe { from_raw_parts(self.source.cast(), self.source_len) }
    }
}

trait Pixel: Copy + Ord + Hash + Into<u64> + std::ops::Not<Output = Self> + std::ops::BitXor<Output = Self> {
    const SEVEN: Self;

    fn of(number: usize) -> Self;
}

impl Pixel for u8 {
    const SEVEN: u8 = 7;

    fn of(number: usize) -> u8 {
        number as u8
    }
}

impl Pixel for u32 {
    const SEVEN: u32 = 7;

    fn of(number: usize) -> u32 {
        number as u32
    }
}

/// Exports a function for both kinds of pixels: `|job, cells|` and what it does.
macro_rules! timed {
    ($bytes:ident, $words:ident, $body:ident) => {
        #[unsafe(no_mangle)]
        pub unsafe extern "C" fn $bytes(job: &mut Job) {
            unsafe { $body::<u8>(job) }
        }

        #[unsafe(no_mangle)]
        pub unsafe extern "C" fn $words(job: &mut Job) {
            unsafe { $body::<u32>(job) }
        }
    };
}

mod loops {
    use super::*;

    fn sum<T: Pixel>(row: &[T]) -> u64 {
        row.iter().fold(0, |sum, pixel| sum + (*pixel).into())
    }

    unsafe fn fill<T: Pixel>(job: &mut Job) {
        let cells = unsafe { job.cells::<T>() };
        for y in 0..job.side {
            cells[y * job.stride..][..job.side].fill(T::SEVEN);
        }
    }

    unsafe fn tiles<T: Pixel>(job: &mut Job) {
        let cells = unsafe { job.cells::<T>() };
        for top in (0..job.side).step_by(16) {
            for left in (0..job.side).step_by(16) {
                for y in top..job.side.min(top + 16) {
                    cells[y * job.stride + left..y * job.stride + job.side.min(left + 16)].fill(T::SEVEN);
                }
            }
        }
    }

    unsafe fn copy<T: Pixel>(job: &mut Job) {
        let (cells, source) = unsafe { (job.cells::<T>(), job.source::<T>()) };
        for y in 0..job.side {
            cells[y * job.stride..][..job.side].copy_from_slice(&source[y * job.source_stride..][..job.side]);
        }
    }

    unsafe fn move_down<T: Pixel>(job: &mut Job) {
        let cells = unsafe { job.cells::<T>() };
        let by = job.side / 8;
        for y in (0..job.side - by).rev() {
            cells.copy_within(y * job.stride..y * job.stride + job.side, (y + by) * job.stride);
        }
    }

    unsafe fn move_right<T: Pixel>(job: &mut Job) {
        let cells = unsafe { job.cells::<T>() };
        for y in 0..job.side {
            cells.copy_within(y * job.stride..y * job.stride + job.side - 1, y * job.stride + 1);
        }
    }

    unsafe fn pack<T: Pixel>(job: &mut Job) {
        let cells = unsafe { job.cells::<T>() };
        for y in 1..job.side {
            cells.copy_within(y * job.stride..y * job.stride + job.side, y * job.side);
        }
    }

    unsafe fn to_contiguous_buf<T: Pixel>(job: &mut Job) {
        let cells = unsafe { job.cells::<T>() };
        let mut joined = Vec::with_capacity(job.side * job.side);
        for y in 0..job.side {
            joined.extend_from_slice(&cells[y * job.stride..][..job.side]);
        }
        job.answer = std::hint::black_box(joined).len() as u64;
    }

    unsafe fn equal<T: Pixel>(job: &mut Job) {
        let (cells, source) = unsafe { (job.cells::<T>(), job.source::<T>()) };
        let same = |y: usize| cells[y * job.stride..][..job.side] == source[y * job.source_stride..][..job.side];
        job.answer = (0..job.side).all(same).into();
    }

    unsafe fn hash<T: Pixel>(job: &mut Job) {
        let cells = unsafe { job.cells::<T>() };
        let mut hasher = DefaultHasher::new();
        hasher.write_u32(job.side as u32);
        hasher.write_u32(job.side as u32);
        for y in 0..job.side {
            T::hash_slice(&cells[y * job.stride..][..job.side], &mut hasher);
        }
        job.answer = hasher.finish();
    }

    unsafe fn rows<T: Pixel>(job: &mut Job) {
        let cells = unsafe { job.cells::<T>() };
        job.answer = (0..job.side).map(|y| sum(&cells[y * job.stride..][..job.side])).sum();
    }

    unsafe fn get<T: Pixel>(job: &mut Job) {
        let cells = unsafe { job.cells::<T>() };
        let mut sum = 0;
        for y in 0..job.side {
            for x in 0..job.side {
                if let Some(pixel) = cells.get(y * job.stride + x) {
                    sum += (*pixel).into();
                }
            }
        }
        job.answer = sum;
    }

    unsafe fn index<T: Pixel>(job: &mut Job) {
        let cells = unsafe { job.cells::<T>() };
        let mut sum = 0;
        for y in 0..job.side {
            for x in 0..job.side {
                sum += cells[y * job.stride + x].into();
            }
        }
        job.answer = sum;
    }

    unsafe fn nested<T: Pixel>(job: &mut Job) {
        let cells = unsafe { job.cells::<T>() };
        job.answer = (1..job.side - 1).map(|y| sum(&cells[y * job.stride + 1..][..job.side - 2])).sum();
    }

    unsafe fn map_pixels<T: Pixel>(job: &mut Job) {
        let cells = unsafe { job.cells::<T>() };
        for y in 0..job.side {
            for pixel in &mut cells[y * job.stride..][..job.side] {
                *pixel = !*pixel;
            }
        }
    }

    unsafe fn swap_rows<T: Pixel>(job: &mut Job) {
        let cells = unsafe { job.cells::<T>() };
        for y in 0..job.side / 2 {
            let (upper, lower) = cells.split_at_mut((job.side - 1 - y) * job.stride);
            upper[y * job.stride..][..job.side].swap_with_slice(&mut lower[..job.side]);
        }
    }

    unsafe fn map_places<T: Pixel>(job: &mut Job) {
        let cells = unsafe { job.cells::<T>() };
        for y in 0..job.side {
            for (x, pixel) in cells[y * job.stride..][..job.side].iter_mut().enumerate() {
                *pixel = *pixel ^ T::of((x ^ y) % 256);
            }
        }
    }

    unsafe fn zip_pixels<T: Pixel>(job: &mut Job) {
        let (cells, source) = unsafe { (job.cells::<T>(), job.source::<T>()) };
        for y in 0..job.side {
            let from = &source[y * job.source_stride..][..job.side];
            for (p, q) in cells[y * job.stride..][..job.side].iter_mut().zip(from) {
                *p = (*p).max(*q);
            }
        }
    }

    unsafe fn from_places<T: Pixel>(job: &mut Job) {
        let mut made = Vec::with_capacity(job.side * job.side);
        for y in 0..job.side {
            for x in 0..job.side {
                made.push(T::of((x ^ y) % 256));
            }
        }
        job.answer = std::hint::black_box(made).len() as u64;
    }

    unsafe fn flip_columns<T: Pixel>(job: &mut Job) {
        let cells = unsafe { job.cells::<T>() };
        for y in 0..job.side {
            cells[y * job.stride..][..job.side].reverse();
        }
    }

    unsafe fn swap_columns<T: Pixel>(job: &mut Job) {
        let cells = unsafe { job.cells::<T>() };
        for y in 0..job.side {
            cells[y * job.stride..][..job.side].swap(0, job.side - 1);
        }
    }

    unsafe fn transpose_into<T: Pixel>(job: &mut Job) {
        let (cells, source) = unsafe { (job.cells::<T>(), job.source::<T>()) };
        for y in 0..job.side {
            for (x, pixel) in cells[y * job.stride..][..job.side].iter_mut().enumerate() {
                *pixel = source[x * job.source_stride + y];
            }
        }
    }

    unsafe fn turn_into<T: Pixel>(job: &mut Job) {
        let (cells, source) = unsafe { (job.cells::<T>(), job.source::<T>()) };
        for y in 0..job.side {
            for (x, pixel) in cells[y * job.stride..][..job.side].iter_mut().enumerate() {
                *pixel = source[(job.side - 1 - x) * job.source_stride + y];
            }
        }
    }

    unsafe fn half_turn<T: Pixel>(job: &mut Job) {
        let (cells, source) = unsafe { (job.cells::<T>(), job.source::<T>()) };
        for y in 0..job.side {
            let from = &source[(job.side - 1 - y) * job.source_stride..][..job.side];
            for (p, q) in cells[y * job.stride..][..job.side].iter_mut().zip(from.iter().rev()) {
                *p = *q;
            }
        }
    }

    unsafe fn transpose<T: Pixel>(job: &mut Job) {
        let cells = unsafe { job.cells::<T>() };
        for y in 0..job.side {
            for x in y + 1..job.side {
                cells.swap(y * job.stride + x, x * job.stride + y);
            }
        }
    }

    unsafe fn turn<T: Pixel>(job: &mut Job) {
        unsafe {
            transpose::<T>(job);
            flip_columns::<T>(job);
        }
    }

    unsafe fn by_tiles<T: Pixel>(job: &mut Job, wide: usize, high: usize) {
        let cells = unsafe { job.cells::<T>() };
        for top in (0..job.side).step_by(high) {
            for left in (0..job.side).step_by(wide) {
                let corner = cells[top * job.stride + left];
                for y in top..job.side.min(top + high) {
                    cells[y * job.stride + left..y * job.stride + job.side.min(left + wide)].fill(corner);
                }
            }
        }
    }

    unsafe fn mosaic<T: Pixel>(job: &mut Job) {
        unsafe { by_tiles::<T>(job, 16, 16) }
    }

    unsafe fn small<T: Pixel>(job: &mut Job) {
        unsafe { by_tiles::<T>(job, 2, 2) }
    }

    unsafe fn low<T: Pixel>(job: &mut Job) {
        unsafe { by_tiles::<T>(job, 16, 1) }
    }

    unsafe fn narrow<T: Pixel>(job: &mut Job) {
        unsafe { by_tiles::<T>(job, 1, 16) }
    }

    unsafe fn single<T: Pixel>(job: &mut Job) {
        unsafe { by_tiles::<T>(job, 1, 1) }
    }

    timed!(rust_u8_fill, rust_u32_fill, fill);
    timed!(rust_u8_pixels_mut, rust_u32_pixels_mut, fill);
    timed!(rust_u8_bands, rust_u32_bands, fill);
    timed!(rust_u8_tiles, rust_u32_tiles, tiles);
    timed!(rust_u8_copy, rust_u32_copy, copy);
    timed!(rust_u8_move_down, rust_u32_move_down, move_down);
    timed!(rust_u8_move_right, rust_u32_move_right, move_right);
    timed!(rust_u8_pack, rust_u32_pack, pack);
    timed!(rust_u8_to_contiguous_buf, rust_u32_to_contiguous_buf, to_contiguous_buf);
    timed!(rust_u8_equal, rust_u32_equal, equal);
    timed!(rust_u8_hash, rust_u32_hash, hash);
    timed!(rust_u8_rows, rust_u32_rows, rows);
    timed!(rust_u8_pixels, rust_u32_pixels, rows);
    timed!(rust_u8_get, rust_u32_get, get);
    timed!(rust_u8_index, rust_u32_index, index);
    timed!(rust_u8_nested, rust_u32_nested, nested);
    timed!(rust_u8_map_pixels, rust_u32_map_pixels, map_pixels);
    timed!(rust_u8_swap_rows, rust_u32_swap_rows, swap_rows);
    timed!(rust_u8_map_places, rust_u32_map_places, map_places);
    timed!(rust_u8_zip_pixels, rust_u32_zip_pixels, zip_pixels);
    timed!(rust_u8_from_places, rust_u32_from_places, from_places);
    timed!(rust_u8_flip_rows, rust_u32_flip_rows, swap_rows);
    timed!(rust_u8_flip_columns, rust_u32_flip_columns, flip_columns);
    timed!(rust_u8_swap_columns, rust_u32_swap_columns, swap_columns);
    timed!(rust_u8_transpose_into, rust_u32_transpose_into, transpose_into);
    timed!(rust_u8_turn_into, rust_u32_turn_into, turn_into);
    timed!(rust_u8_half_turn, rust_u32_half_turn, half_turn);
    timed!(rust_u8_transpose, rust_u32_transpose, transpose);
    timed!(rust_u8_turn, rust_u32_turn, turn);
    timed!(rust_u8_mosaic, rust_u32_mosaic, mosaic);
    timed!(rust_u8_small, rust_u32_small, small);
    timed!(rust_u8_low, rust_u32_low, low);
    timed!(rust_u8_narrow, rust_u32_narrow, narrow);
    timed!(rust_u8_single, rust_u32_single, single);
}

/// The crate's own calls, where it has one.
#[cfg(beside_crate)]
mod beside {
    use super::*;
    use imgref::{Img, ImgRef, ImgRefMut};
    use std::mem::ManuallyDrop;

    unsafe fn image<'a, T: Pixel>(job: &Job) -> ImgRef<'a, T> {
        Img::new_stride(unsafe { job.cells::<T>() }, job.side, job.side, job.stride)
    }

    unsafe fn lent<'a, T: Pixel>(job: &Job) -> ImgRefMut<'a, T> {
        Img::new_stride(unsafe { job.cells::<T>() }, job.side, job.side, job.stride)
    }

    fn sum_of_rows<T: Pixel>(image: ImgRef<'_, T>) -> u64 {
        let mut sum = 0;
        for row in image.rows() {
            for pixel in row {
                sum += (*pixel).into();
            }
        }
        sum
    }

    unsafe fn pixels_mut<T: Pixel>(job: &mut Job) {
        for pixel in unsafe { lent::<T>(job) }.pixels_mut() {
            *pixel = T::SEVEN;
        }
    }

    // The vector is never dropped, and never grows: the cells stay those of the job.
    unsafe fn pack<T: Pixel>(job: &mut Job) {
        let held = unsafe { Vec::from_raw_parts(job.cells.cast::<T>(), job.len, job.len) };
        let mut image = ManuallyDrop::new(Img::new_stride(held, job.side, job.side, job.stride));
        std::hint::black_box(image.as_contiguous_buf());
    }

    unsafe fn to_contiguous_buf<T: Pixel>(job: &mut Job) {
        let (joined, _, _) = unsafe { image::<T>(job) }.to_contiguous_buf();
        job.answer = std::hint::black_box(joined).len() as u64;
    }

    unsafe fn equal<T: Pixel>(job: &mut Job) {
        let source = Img::new_stride(unsafe { job.source::<T>() }, job.side, job.side, job.source_stride);
        job.answer = (unsafe { image::<T>(job) } == source).into();
    }

    unsafe fn hash<T: Pixel>(job: &mut Job) {
        let mut hasher = DefaultHasher::new();
        unsafe { image::<T>(job) }.hash(&mut hasher);
        job.answer = hasher.finish();
    }

    unsafe fn rows<T: Pixel>(job: &mut Job) {
        job.answer = sum_of_rows(unsafe { image::<T>(job) });
    }

    unsafe fn pixels<T: Pixel>(job: &mut Job) {
        let mut sum = 0;
        for pixel in unsafe { image::<T>(job) }.pixels() {
            sum += pixel.into();
        }
        job.answer = sum;
    }

    // What tests a place too: the crate has no `get`.
    unsafe fn index<T: Pixel>(job: &mut Job) {
        let image = unsafe { image::<T>(job) };
        let mut sum = 0;
        for y in 0..job.side {
            for x in 0..job.side {
                sum += image[(x, y)].into();
            }
        }
        job.answer = sum;
    }

    unsafe fn nested<T: Pixel>(job: &mut Job) {
        let outer = unsafe { image::<T>(job) }.sub_image(1, 1, job.side - 1, job.side - 1);
        job.answer = sum_of_rows(outer.sub_image(0, 0, job.side - 2, job.side - 2));
    }

    timed!(crate_u8_pixels_mut, crate_u32_pixels_mut, pixels_mut);
    timed!(crate_u8_pack, crate_u32_pack, pack);
    timed!(crate_u8_to_contiguous_buf, crate_u32_to_contiguous_buf, to_contiguous_buf);
    timed!(crate_u8_equal, crate_u32_equal, equal);
    timed!(crate_u8_hash, crate_u32_hash, hash);
    timed!(crate_u8_rows, crate_u32_rows, rows);
    timed!(crate_u8_pixels, crate_u32_pixels, pixels);
    timed!(crate_u8_get, crate_u32_get, index);
    timed!(crate_u8_index, crate_u32_index, index);
    timed!(crate_u8_nested, crate_u32_nested, nested);
}
