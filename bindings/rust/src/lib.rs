//! Strided 2-D images over proved calls, by the names of the crate `imgref`.
//!
//! An image is a buffer with a width, a height and a stride: a slice ([`ImgRef`]), a mutable slice
//! ([`ImgRefMut`]) or a `Vec` ([`ImgVec`]). The pixel in column `x` of row `y` is `y * stride + x`
//! of the buffer, and all else is padding. A pixel is an integer, `f32`, `f64`, an array of up to four of
//! these, or a struct of the caller's that is [`Pixel`] by one line.
//!
//! ```
//! use imgref_proved::{ImgRefMut, Window};
//!
//! let mut cells = [1u8, 2, 3, 0, 4, 5, 6, 0, 0]; // 3 by 2 pixels at stride 4
//! let mut image = ImgRefMut::new_stride(&mut cells[..], 3, 2, 4)?;
//! image.fill_window(Window::new(1, 0, 2, 2), 7)?;
//! image.sub_image_mut(0, 1, 2, 1)?.put(0, 0, 9)?;
//! assert_eq!(image.get(2, 1), Ok(7));
//! assert_eq!(cells, [1, 7, 7, 0, 9, 7, 7, 0, 0]);
//! # Ok::<(), imgref_proved::Refused>(())
//! ```
//!
//! Where the original panics, a call here returns [`Refused`], and nothing has changed. Only the
//! index `image[(x, y)]` panics. The borrow checker says that what is written is not also read, so
//! every function is safe. The calls that aren't in the original have the names of the C interface.

use std::fmt;

mod buffers;
mod calls;
mod images;
mod pixels;
mod places;
mod regions;
pub use buffers::{Buffer, BufferMut};
pub use calls::Cell;
pub use images::{Img, ImgRef, ImgRefMut, ImgVec};
pub use pixels::{Pixel, Sample};

/// What a call was refused for. Nothing has changed then.
#[derive(Clone, Copy, Debug, PartialEq, Eq)]
pub enum Refused {
    /// The cells are no image of that width, height and stride, or the width is no multiple of `channels`.
    NotAnImage,
    /// A window isn't inside the image.
    WindowOutside,
    /// A window differs in size from what comes into it.
    SizesDiffer,
    /// There is no pixel in that column and row.
    PlaceOutside,
    /// There is no tile of that number, or a tile would have no pixel.
    NoTile,
    /// There is no turn of that number.
    NoTurn,
    /// A sum might not fit its number: a blur's radius is 2^15 or more.
    TooLarge,
    /// A work buffer is too small. No call of this package gives such a one.
    NoRoom,
}

impl fmt::Display for Refused {
    fn fmt(&self, f: &mut fmt::Formatter<'_>) -> fmt::Result {
        f.write_str(match self {
            Self::NotAnImage => "not an image",
            Self::WindowOutside => "the window is outside",
            Self::SizesDiffer => "sizes differ",
            Self::PlaceOutside => "the place is outside",
            Self::NoTile => "no such tile",
            Self::NoTurn => "no such turn",
            Self::TooLarge => "a sum might not fit",
            Self::NoRoom => "the work buffer has too few numbers",
        })
    }
}

impl std::error::Error for Refused {}

fn done(status: u32) -> Result<(), Refused> {
    match status {
        0 => Ok(()),
        1 => Err(Refused::NotAnImage),
        2 => Err(Refused::WindowOutside),
        3 => Err(Refused::SizesDiffer),
        4 => Err(Refused::PlaceOutside),
        5 => Err(Refused::NoTile),
        6 => Err(Refused::NoTurn),
        7 => Err(Refused::TooLarge),
        _ => Err(Refused::NoRoom),
    }
}

/// A turn of an image, clockwise.
#[repr(u32)]
#[derive(Clone, Copy, Debug, PartialEq, Eq)]
pub enum Turn {
    /// By a quarter: the first row becomes the last column.
    Right = 1,
    /// By a half: the first row becomes the last one, from right to left.
    Half,
    /// By three quarters: the first row becomes the first column, from the bottom.
    Left,
}

/// The column and the row of a window's corner, and its size.
#[repr(C)]
#[derive(Clone, Copy, Debug, Default, PartialEq, Eq, Hash)]
pub struct Window {
    pub left: usize,
    pub top: usize,
    pub width: usize,
    pub height: usize,
}

impl Window {
    /// The window with its corner in this column and row.
    pub const fn new(left: usize, top: usize, width: usize, height: usize) -> Self {
        Window { left, top, width, height }
    }
}

/// How many pixels the box of a blur has on each side of its own: a number for both directions, or two.
///
/// ```
/// use imgref_proved::Radius;
///
/// assert_eq!(Radius::from(2), Radius { across: 2, down: 2 });
/// assert_eq!(Radius::from((2, 0)), Radius { across: 2, down: 0 });
/// ```
#[derive(Clone, Copy, Debug, PartialEq, Eq)]
pub struct Radius {
    /// On the left and on the right.
    pub across: usize,
    /// Above and below.
    pub down: usize,
}

impl From<usize> for Radius {
    fn from(radius: usize) -> Self {
        Radius { across: radius, down: radius }
    }
}

impl From<(usize, usize)> for Radius {
    fn from((across, down): (usize, usize)) -> Self {
        Radius { across, down }
    }
}

#[cfg(test)]
mod tests;
