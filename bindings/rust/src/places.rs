//! Equality, and the index by column and row.

use std::ops::{Index, IndexMut};

use crate::images::{calls_on, cells_of};
use crate::{done, Buffer, BufferMut, Img};

/// Whether both have one size and pixels of equal bytes at every place; strides and padding don't count.
/// So `0.0` and `-0.0` differ, and a NaN equals itself.
impl<Container: Buffer, Other: Buffer<Pixel = Container::Pixel>> PartialEq<Img<Other>> for Img<Container> {
    fn eq(&self, other: &Img<Other>) -> bool {
        let (one, that, mut equal) = (self.in_cells(), other.in_cells(), false);
        let ((cells, len), (second, second_len)) = (cells_of(self.buf.cells()), cells_of(other.buf.cells()));
        // SAFETY: as of the calls of images.rs.
        let answer = done(unsafe { (calls_on::<Container>().equal)(cells, len, one.width, one.height, one.stride, second, second_len, that.width, that.height, that.stride, &mut equal) });
        answer.is_ok() && equal
    }
}

impl<Container: Buffer> Eq for Img<Container> {}

/// The pixel in column `x` of row `y`.
///
/// # Panics
///
/// Where there is no such pixel.
impl<Container: Buffer> Index<(usize, usize)> for Img<Container> {
    type Output = Container::Pixel;

    fn index(&self, (x, y): (usize, usize)) -> &Self::Output {
        let place = self.place(x, y).expect("a pixel of the image");
        &self.buf.cells()[place]
    }
}

/// The pixel in column `x` of row `y`, for writing.
///
/// # Panics
///
/// Where there is no such pixel.
impl<Container: BufferMut> IndexMut<(usize, usize)> for Img<Container> {
    fn index_mut(&mut self, (x, y): (usize, usize)) -> &mut Self::Output {
        let place = self.place(x, y).expect("a pixel of the image");
        &mut self.buf.cells_mut()[place]
    }
}
