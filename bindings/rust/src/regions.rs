//! Values, sums and connected components of the pixels of an image.

use crate::calls::{imgref_u16_histogram, imgref_u8_equalize, imgref_u8_histogram, imgref_u8_integral};
use crate::images::{calls_on, cells_of, cells_of_mut};
use crate::pixels::Single;
use crate::{done, Buffer, BufferMut, Img, ImgVec, Refused, Window};

// SAFETY of the calls below: as of those of images.rs. A table has as many counts as the call writes.
impl<Container: Buffer<Pixel = u8>> Img<Container> {
    /// How many pixels have each value: item `v` counts the pixels that are `v`. Colours don't compile,
    /// here and in [`Img::equalize`] and [`Img::integral`]:
    ///
    /// ```compile_fail
    /// let _ = imgref_proved::ImgVec::new(vec![[0u8; 3]; 4], 2, 2).unwrap().histogram();
    /// ```
    ///
    /// ```compile_fail
    /// let _ = imgref_proved::ImgVec::new(vec![[0u8; 3]; 4], 2, 2).unwrap().equalize();
    /// ```
    ///
    /// ```compile_fail
    /// let _ = imgref_proved::ImgVec::new(vec![[0u8; 3]; 4], 2, 2).unwrap().integral();
    /// ```
    ///
    /// # Errors
    ///
    /// None for a buffer that gives the same cells on each call.
    pub fn histogram(&self) -> Result<[u64; 256], Refused> {
        let (is, (cells, len), mut counts) = (self.in_cells(), cells_of(self.buf.cells()), [0; 256]);
        done(unsafe { imgref_u8_histogram(cells, len, is.width, is.height, is.stride, &mut counts) })?;
        Ok(counts)
    }

    /// The integral image, of the same size. Each pixel of it is the sum of the pixels up to
    /// its column in the rows up to its own.
    ///
    /// # Errors
    ///
    /// None for a buffer that gives the same cells on each call.
    pub fn integral(&self) -> Result<ImgVec<u64>, Refused> {
        let (is, (cells, len), mut areas) = (self.in_cells(), cells_of(self.buf.cells()), vec![0; self.width * self.height]);
        done(unsafe { imgref_u8_integral(cells, len, is.width, is.height, is.stride, areas.as_mut_ptr(), areas.len(), is.width.max(1)) })?;
        ImgVec::new(areas, self.width, self.height)
    }
}

impl<Container: BufferMut<Pixel = u8>> Img<Container> {
    /// Spreads the values over 0 to 255: each pixel becomes the part of 255 that the pixels up to its
    /// value are of all, rounded down.
    ///
    /// # Errors
    ///
    /// None for a buffer that gives the same cells on each call.
    pub fn equalize(&mut self) -> Result<(), Refused> {
        let (is, (cells, len)) = (self.in_cells(), cells_of_mut(self.buf.cells_mut()));
        done(unsafe { imgref_u8_equalize(cells, len, is.width, is.height, is.stride) })
    }
}

impl<Container: Buffer<Pixel = u16>> Img<Container> {
    /// The same as [`Img::histogram`] for pixels of two bytes: 65536 counts.
    ///
    /// # Errors
    ///
    /// None for a buffer that gives the same cells on each call.
    pub fn histogram_u16(&self) -> Result<Vec<u64>, Refused> {
        let (is, (cells, len), mut counts) = (self.in_cells(), cells_of(self.buf.cells()), vec![0; 1 << 16]);
        done(unsafe { imgref_u16_histogram(cells, len, is.width, is.height, is.stride, counts.as_mut_ptr()) })?;
        Ok(counts)
    }
}

// (a pixel of several cells doesn't compile)
impl<Container: Buffer> Img<Container> {
    /// The connected components: the label of each pixel, and how many components there are. Two
    /// pixels have one label exactly if a path leads from one to the other, over sides and over pixels
    /// of the same bytes. The labels begin at 1. A pixel has one cell. Allocates a number for each place.
    ///
    /// Colours of three bytes don't compile, here and in [`Img::bounding_box`] and [`Img::flood_fill`]. As
    /// three `u8` next to one another their channels are pixels of their own, and mix.
    ///
    /// ```compile_fail
    /// let _ = imgref_proved::ImgVec::new(vec![[0u8; 3]; 4], 2, 2).unwrap().components();
    /// ```
    ///
    /// ```compile_fail
    /// let _ = imgref_proved::ImgVec::new(vec![[0u8; 3]; 4], 2, 2).unwrap().bounding_box([0; 3]);
    /// ```
    ///
    /// ```compile_fail
    /// let _ = imgref_proved::ImgVec::new(vec![[0u8; 3]; 4], 2, 2).unwrap().flood_fill(0, 0, [1; 3]);
    /// ```
    ///
    /// # Errors
    ///
    /// None for a buffer that gives the same cells on each call.
    pub fn components(&self) -> Result<(ImgVec<u64>, u64), Refused> {
        let _ = Single::<Container::Pixel>::TESTED;
        let (is, (cells, len)) = (self.in_cells(), cells_of(self.buf.cells()));
        let (mut labels, mut room, mut count) = (vec![0; is.width * is.height], vec![0; is.width * is.height], 0);
        done(unsafe { (calls_on::<Container>().components)(cells, len, is.width, is.height, is.stride, labels.as_mut_ptr(), labels.len(), is.width.max(1), room.as_mut_ptr(), room.len(), &mut count) })?;
        Ok((ImgVec::new(labels, is.width, is.height)?, count))
    }

    /// The least window that has every pixel with these bytes, or `None` where there is no such pixel.
    /// With a label it is the box around its component. A pixel has one cell.
    ///
    /// # Errors
    ///
    /// None for a buffer that gives the same cells on each call.
    pub fn bounding_box(&self, value: Container::Pixel) -> Result<Option<Window>, Refused> {
        let (is, (cells, len), mut around) = (self.in_cells(), cells_of(self.buf.cells()), Window::default());
        done(unsafe { (calls_on::<Container>().bounding_box)(cells, len, is.width, is.height, is.stride, Single::cell(value), &mut around) })?;
        Ok((around.width > 0).then_some(around))
    }
}

impl<Container: BufferMut> Img<Container> {
    /// The pixel in column `x` of row `y` becomes `value`, and so does each that is connected with it: a
    /// path leads there over sides, and over pixels of the same bytes. A pixel has one cell. Allocates a
    /// number for each place.
    ///
    /// # Errors
    ///
    /// [`Refused::PlaceOutside`].
    pub fn flood_fill(&mut self, x: usize, y: usize, value: Container::Pixel) -> Result<(), Refused> {
        let (is, (cells, len)) = (self.in_cells(), cells_of_mut(self.buf.cells_mut()));
        let mut room = vec![0; is.width * is.height];
        done(unsafe { (calls_on::<Container>().flood_fill)(cells, len, is.width, is.height, is.stride, x, y, Single::cell(value), room.as_mut_ptr(), room.len()) })
    }
}
