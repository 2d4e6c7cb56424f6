//! What a pixel may be.

use std::mem::{align_of, size_of, transmute_copy};

use crate::calls::{Blur, MosaicMeans};
use crate::Cell;

/// What a pixel may be: a type that is copied, of 1 to 4 cells, without padding.
///
/// Integers, `f32`, `f64`, `bool`, `char`, and arrays of these are pixels. A struct becomes one by a line:
///
/// ```
/// use imgref_proved::{ImgVec, Pixel, Turn, Window};
///
/// #[repr(C)]
/// #[derive(Clone, Copy, Debug, PartialEq)]
/// struct Rgb8 {
///     red: u8,
///     green: u8,
///     blue: u8,
/// }
///
/// // SAFETY: three bytes next to one another, without padding and without a pointer.
/// unsafe impl Pixel for Rgb8 {
///     type Cell = u8;
/// }
///
/// let (red, blue) = (Rgb8 { red: 255, green: 0, blue: 0 }, Rgb8 { red: 0, green: 0, blue: 255 });
/// let mut image = ImgVec::new(vec![red; 6], 3, 2)?;
/// image.fill_window(Window::new(2, 0, 1, 1), blue)?;
/// image.turn(Turn::Half)?;
/// assert_eq!((image[(0, 1)], image.count(image.whole(), red)), (blue, Ok(5)));
/// # Ok::<(), imgref_proved::Refused>(())
/// ```
///
/// # Safety
///
/// The library copies, moves and compares values cell by cell, so for every value of the type:
///
/// - each byte is written: there is no padding, also not at the end. An `enum` with fields and a
///   `MaybeUninit` have such bytes.
/// - it has no reference and no pointer, since a pointer that is copied as a number isn't one.
///
/// Any other value stays one: the library writes whole pixels alone, each of which it was given.
///
/// # Compile errors
///
/// What can be tested is tested where an image of such pixels is made: the alignment is at least that of
/// the cell, and the size is 1 to 4 times the cell's.
///
/// ```compile_fail
/// #[derive(Clone, Copy)]
/// struct Five([u8; 5]);
/// unsafe impl imgref_proved::Pixel for Five {
///     type Cell = u8; // five cells
/// }
/// let _ = imgref_proved::ImgVec::new(vec![Five([0; 5])], 1, 1);
/// ```
///
/// ```compile_fail
/// #[derive(Clone, Copy)]
/// struct Three([u16; 3]);
/// unsafe impl imgref_proved::Pixel for Three {
///     type Cell = u32; // a cell and a half, at a multiple of two bytes
/// }
/// let _ = imgref_proved::ImgVec::new(vec![Three([0; 3])], 1, 1);
/// ```
///
/// ```compile_fail
/// #[derive(Clone, Copy)]
/// struct Unaligned([u8; 4]);
/// unsafe impl imgref_proved::Pixel for Unaligned {
///     type Cell = u32; // at any byte
/// }
/// let _ = imgref_proved::ImgVec::new(vec![Unaligned([0; 4])], 1, 1);
/// ```
///
/// ```compile_fail
/// let _ = imgref_proved::ImgVec::new(vec![[0u8; 0]], 1, 1); // no cell
/// ```
pub unsafe trait Pixel: Copy {
    /// The cells that a pixel has.
    type Cell: Cell;
}

/// A pixel of which means are taken: its cells are the numbers of its channels, and any of them is a value.
///
/// # Safety
///
/// Every bit pattern is a value of the type, since a mean is none of the values that were given.
///
/// ```
/// use imgref_proved::{ImgVec, Window};
///
/// let mut image = ImgVec::new(vec![[1u8, 10, 0], [2, 21, 0]], 2, 1)?;
/// image.mosaic_means(1, Window::new(0, 0, 2, 1), 2, 1)?;
/// assert_eq!(image.into_buf(), [[2, 16, 0], [2, 16, 0]]);
/// # Ok::<(), imgref_proved::Refused>(())
/// ```
///
/// That the cells are `u8` or `u16` is tested while the program is compiled.
///
/// ```compile_fail
/// #[derive(Clone, Copy)]
/// struct Long(u32);
/// unsafe impl imgref_proved::Pixel for Long {
///     type Cell = u32;
/// }
/// unsafe impl imgref_proved::Sample for Long {} // four bytes
/// let mut image = imgref_proved::ImgVec::new(vec![Long(0)], 1, 1).unwrap();
/// let _ = image.mosaic_means(1, image.whole(), 1, 1);
/// ```
pub unsafe trait Sample: Pixel {}

/// How many cells a pixel has. That it has so many is tested while the program is compiled.
pub(crate) struct Cells<P>(P);

impl<P: Pixel> Cells<P> {
    pub(crate) const EACH: usize = {
        let (size, cell) = (size_of::<P>(), size_of::<P::Cell>());
        assert!(align_of::<P>() >= align_of::<P::Cell>(), "a pixel lies at multiples of its cell's alignment");
        assert!(size % cell == 0 && size / cell >= 1 && size / cell <= 4, "a pixel has 1 to 4 cells");
        size / cell
    };
}

/// A pixel of one cell. That it has one is tested while the program is compiled.
pub(crate) struct Single<P>(P);

impl<P: Pixel> Single<P> {
    pub(crate) const TESTED: () = assert!(Cells::<P>::EACH == 1, "connected pixels have one cell");

    pub(crate) fn cell(pixel: P) -> P::Cell {
        let _ = Self::TESTED;
        // SAFETY: both have the same size and no padding, and any bytes are a number.
        unsafe { transmute_copy(&pixel) }
    }
}

/// The calls that take means of such pixels.
pub(crate) struct Means<P>(P);

impl<P: Sample> Means<P> {
    pub(crate) const CALL: MosaicMeans<P::Cell> = match P::Cell::MOSAIC_MEANS {
        Some(call) => call,
        None => panic!("means are taken of cells of one and of two bytes"),
    };
    pub(crate) const BLUR: Blur<P::Cell> = match P::Cell::BLUR {
        Some(call) => call,
        None => panic!("blurs are of cells of one byte"),
    };
}

macro_rules! pixels {
    ($($pixel:ty: $cell:ty),*) => {$(
        // SAFETY: a number, a truth value or a character, of the size of its cell.
        unsafe impl Pixel for $pixel {
            type Cell = $cell;
        }
    )*};
}

pixels!(u8: u8, i8: u8, bool: u8, u16: u16, i16: u16, u32: u32, i32: u32, f32: u32, char: u32, u64: u64, i64: u64, f64: u64);
#[cfg(target_pointer_width = "64")]
pixels!(usize: u64, isize: u64);

// SAFETY: an array has no byte between its elements.
unsafe impl<P: Pixel, const N: usize> Pixel for [P; N] {
    type Cell = P::Cell;
}

// SAFETY: each bit pattern is a number.
unsafe impl Sample for u8 {}
// SAFETY: the same.
unsafe impl Sample for u16 {}
// SAFETY: the same of each element.
unsafe impl<P: Sample, const N: usize> Sample for [P; N] {}
