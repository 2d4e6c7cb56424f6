//! Images, and the calls on them.

use std::ops::Range;

use crate::calls::{imgref_blur_room, imgref_is_image, imgref_tile, imgref_tile_count, imgref_window, Calls};
use crate::pixels::{Cells, Means};
use crate::{done, Buffer, BufferMut, Cell, Pixel, Radius, Refused, Sample, Turn, Window};

/// A buffer with a width, a height and a stride, all in pixels.
#[derive(Clone, Copy, Debug)]
pub struct Img<Container> {
    pub(crate) buf: Container,
    pub(crate) width: usize,
    pub(crate) height: usize,
    pub(crate) stride: usize,
}

/// An image over borrowed pixels, for reading.
pub type ImgRef<'slice, Pixel> = Img<&'slice [Pixel]>;
/// An image over borrowed pixels, for writing.
pub type ImgRefMut<'slice, Pixel> = Img<&'slice mut [Pixel]>;
/// An image that owns its pixels.
pub type ImgVec<Pixel> = Img<Vec<Pixel>>;

impl<Container> Img<Container> {
    /// The columns.
    pub const fn width(&self) -> usize {
        self.width
    }

    /// The rows.
    pub const fn height(&self) -> usize {
        self.height
    }

    /// How many pixels a row begins after the one before it.
    pub const fn stride(&self) -> usize {
        self.stride
    }

    /// The buffer, with its padding.
    pub const fn buf(&self) -> &Container {
        &self.buf
    }

    /// The same without the image.
    pub fn into_buf(self) -> Container {
        self.buf
    }

    /// The window of all.
    pub const fn whole(&self) -> Window {
        Window::new(0, 0, self.width, self.height)
    }

    /// The windows of the tiles of this size, line by line.
    ///
    /// # Errors
    ///
    /// [`Refused::NoTile`] for a tile of no pixel.
    pub fn tiles(&self, tile_width: usize, tile_height: usize) -> Result<impl ExactSizeIterator<Item = Window> + DoubleEndedIterator, Refused> {
        let (width, height, mut count) = (self.width, self.height, 0);
        // SAFETY: a number of this function's own takes the result.
        done(unsafe { imgref_tile_count(width, height, tile_width, tile_height, &mut count) })?;
        Ok((0..count).map(move |number| {
            let mut tile = Window::default();
            // SAFETY: a window of this closure's own takes the result.
            let answer = done(unsafe { imgref_tile(width, height, tile_width, tile_height, number, &mut tile) });
            debug_assert_eq!(answer, Ok(()));
            tile
        }))
    }
}

/// The library's functions on the cells of a buffer.
pub(crate) const fn calls_on<Container: Buffer>() -> Calls<CellOf<Container>> {
    <CellOf<Container> as Cell>::CALLS
}

type CellOf<Container> = <<Container as Buffer>::Pixel as Pixel>::Cell;

/// Pixels as the cells that the library is given: where they are, and how many.
pub(crate) fn cells_of<P: Pixel>(pixels: &[P]) -> (*const P::Cell, usize) {
    // (a slice has fewer than 2^63 bytes, so no product overflows)
    (pixels.as_ptr().cast(), Cells::<P>::EACH * pixels.len())
}

pub(crate) fn cells_of_mut<P: Pixel>(pixels: &mut [P]) -> (*mut P::Cell, usize) {
    (pixels.as_mut_ptr().cast(), Cells::<P>::EACH * pixels.len())
}

/// The sizes of an image as the library takes them.
pub(crate) struct Sizes {
    pub(crate) width: usize,
    pub(crate) height: usize,
    pub(crate) stride: usize,
    channels: usize,
}

impl<Container: Buffer> Img<Container> {
    // (`new_stride` has tested that no product overflows)
    const EACH: usize = Cells::<Container::Pixel>::EACH;

    /// The sizes in cells.
    pub(crate) fn in_cells(&self) -> Sizes {
        Sizes { width: Self::EACH * self.width, height: self.height, stride: Self::EACH * self.stride, channels: 1 }
    }

    // The sizes in colours of so many pixels, and how many cells such a colour has.
    fn in_colours(&self, channels: usize) -> Result<Sizes, Refused> {
        if channels == 0 || self.width % channels != 0 {
            return Err(Refused::NotAnImage);
        }
        Ok(Sizes { width: self.width / channels, channels: channels.saturating_mul(Self::EACH), ..self.in_cells() })
    }

    // A window in cells. One whose cells can't be counted is outside.
    fn window_in_cells(window: Window) -> Window {
        Window { left: window.left.saturating_mul(Self::EACH), width: window.width.saturating_mul(Self::EACH), ..window }
    }
}

// SAFETY of the calls below: a slice is memory of its length that stays for the call, its pointer
// is never null, also where it is empty, its cells lie at multiples of their size and are all of it
// (`Pixel`), and a `&mut` shares nothing with any other parameter.
impl<Container: Buffer> Img<Container> {
    /// The image of this buffer whose rows are joined.
    ///
    /// # Errors
    ///
    /// [`Refused::NotAnImage`] where the buffer doesn't reach the last pixel.
    pub fn new(buf: Container, width: usize, height: usize) -> Result<Self, Refused> {
        Self::new_stride(buf, width, height, width.max(1))
    }

    /// The image of this buffer at a stride.
    ///
    /// # Errors
    ///
    /// [`Refused::NotAnImage`] where the buffer doesn't reach the last pixel, the stride is 0 or below the width, the height
    /// is 2^32 or more, or a row has so many cells.
    pub fn new_stride(buf: Container, width: usize, height: usize, stride: usize) -> Result<Self, Refused> {
        let (_, len) = cells_of(buf.cells());
        let (wide, step) = Self::EACH.checked_mul(width).zip(Self::EACH.checked_mul(stride)).ok_or(Refused::NotAnImage)?;
        // SAFETY: numbers alone.
        let is_image = unsafe { imgref_is_image(len, wide, height, step) };
        is_image.then_some(Img { buf, width, height, stride }).ok_or(Refused::NotAnImage)
    }

    /// The same for reading.
    #[allow(clippy::should_implement_trait)]
    pub fn as_ref(&self) -> ImgRef<'_, Container::Pixel> {
        Img { buf: self.buf.cells(), width: self.width, height: self.height, stride: self.stride }
    }

    /// The pixel in column `x` of row `y`.
    ///
    /// # Errors
    ///
    /// [`Refused::PlaceOutside`].
    pub fn get(&self, x: usize, y: usize) -> Result<Container::Pixel, Refused> {
        Ok(self.buf.cells()[self.place(x, y)?])
    }

    // Where the pixel in a column and a row is.
    pub(crate) fn place(&self, x: usize, y: usize) -> Result<usize, Refused> {
        match self.stretch(Window::new(x, y, 1, 1)) {
            Err(Refused::WindowOutside) => Err(Refused::PlaceOutside),
            stretch => Ok(stretch?.start),
        }
    }

    /// How many pixels of the window have the value, by its bytes.
    ///
    /// # Errors
    ///
    /// [`Refused::WindowOutside`].
    pub fn count(&self, window: Window, value: Container::Pixel) -> Result<usize, Refused> {
        self.count_pixels(window, &[value])
    }

    /// The same of colours, as [`Img::fill_pixels`] has them.
    ///
    /// # Errors
    ///
    /// [`Refused::NotAnImage`] for a number of cells that isn't 1 to 4 or a width that is no multiple,
    /// [`Refused::WindowOutside`].
    pub fn count_pixels(&self, window: Window, value: &[Container::Pixel]) -> Result<usize, Refused> {
        let (is, (cells, len), mut count) = (self.in_colours(value.len())?, cells_of(self.buf.cells()), 0);
        done(unsafe { (calls_on::<Container>().count)(cells, len, is.width, is.height, is.stride, window, cells_of(value).0, is.channels, &mut count) })?;
        Ok(count)
    }

    /// Writes the pixels to `target`, turned: it has the size of the turned image.
    ///
    /// # Errors
    ///
    /// [`Refused::SizesDiffer`].
    pub fn turn_into<Target: BufferMut<Pixel = Container::Pixel>>(&self, target: &mut Img<Target>, turn: Turn) -> Result<(), Refused> {
        self.turn_pixels_into(1, target, turn)
    }

    /// The same for colours of `channels` cells, as [`Img::fill_pixels`] has them.
    ///
    /// # Errors
    ///
    /// [`Refused::NotAnImage`] as in [`Img::fill_pixels`], [`Refused::SizesDiffer`].
    pub fn turn_pixels_into<Target: BufferMut<Pixel = Container::Pixel>>(&self, channels: usize, target: &mut Img<Target>, turn: Turn) -> Result<(), Refused> {
        let (is, to) = (self.in_colours(channels)?, target.in_colours(channels)?);
        let ((from, from_len), (cells, len)) = (cells_of(self.buf.cells()), cells_of_mut(target.buf.cells_mut()));
        done(unsafe { (calls_on::<Container>().turn_into)(cells, len, to.width, to.height, to.stride, is.channels, from, from_len, is.width, is.height, is.stride, turn as u32) })
    }

    /// Writes the pixels to `target` with rows in the place of columns: it is as wide as this image is
    /// high.
    ///
    /// # Errors
    ///
    /// [`Refused::SizesDiffer`].
    pub fn transpose_into<Target: BufferMut<Pixel = Container::Pixel>>(&self, target: &mut Img<Target>) -> Result<(), Refused> {
        self.transpose_pixels_into(1, target)
    }

    /// The same for colours of `channels` cells, as [`Img::fill_pixels`] has them.
    ///
    /// # Errors
    ///
    /// [`Refused::NotAnImage`] as in [`Img::fill_pixels`], [`Refused::SizesDiffer`].
    pub fn transpose_pixels_into<Target: BufferMut<Pixel = Container::Pixel>>(&self, channels: usize, target: &mut Img<Target>) -> Result<(), Refused> {
        let (is, to) = (self.in_colours(channels)?, target.in_colours(channels)?);
        let ((from, from_len), (cells, len)) = (cells_of(self.buf.cells()), cells_of_mut(target.buf.cells_mut()));
        done(unsafe { (calls_on::<Container>().transpose_into)(cells, len, to.width, to.height, to.stride, is.channels, from, from_len, is.width, is.height, is.stride) })
    }

    /// A window as an image over the same pixels.
    ///
    /// # Errors
    ///
    /// [`Refused::WindowOutside`].
    pub fn sub_image(&self, left: usize, top: usize, width: usize, height: usize) -> Result<ImgRef<'_, Container::Pixel>, Refused> {
        let stretch = self.stretch(Window::new(left, top, width, height))?;
        Ok(Img { buf: &self.buf.cells()[stretch], width, height, stride: self.stride })
    }

    /// The pixels from a window's first to its last.
    pub(crate) fn stretch(&self, window: Window) -> Result<Range<usize>, Refused> {
        let (mut start, mut count) = (0, 0);
        // SAFETY: two numbers of this function's own take the result.
        done(unsafe { imgref_window(self.buf.cells().len(), self.width, self.height, self.stride, window, &mut start, &mut count) })?;
        Ok(start..start + count)
    }

    /// The rows, each as a slice of its `width` pixels. An image of width 0 has no row.
    pub fn rows(&self) -> impl ExactSizeIterator<Item = &[Container::Pixel]> + DoubleEndedIterator {
        let (cells, width) = (self.buf.cells(), self.width);
        cells.chunks(self.stride).take(if width == 0 { 0 } else { self.height }).map(move |it| &it[..width])
    }

    /// The pixels, row by row.
    pub fn pixels(&self) -> impl Iterator<Item = Container::Pixel> + '_ {
        self.rows().flatten().copied()
    }

    /// The pixels in joined rows, with the width and the height.
    pub fn to_contiguous_buf(&self) -> (Vec<Container::Pixel>, usize, usize) {
        (self.rows().collect::<Vec<_>>().concat(), self.width, self.height)
    }
}

impl<Container: BufferMut> Img<Container> {
    /// The same for writing, over the same pixels.
    #[allow(clippy::should_implement_trait)]
    pub fn as_mut(&mut self) -> ImgRefMut<'_, Container::Pixel> {
        Img { width: self.width, height: self.height, stride: self.stride, buf: self.buf.cells_mut() }
    }

    /// The pixel in column `x` of row `y` becomes `value`.
    ///
    /// # Errors
    ///
    /// [`Refused::PlaceOutside`].
    pub fn put(&mut self, x: usize, y: usize, value: Container::Pixel) -> Result<(), Refused> {
        let place = self.place(x, y)?;
        self.buf.cells_mut()[place] = value;
        Ok(())
    }

    /// Every pixel of the window becomes `value`.
    ///
    /// # Errors
    ///
    /// [`Refused::WindowOutside`].
    pub fn fill_window(&mut self, window: Window, value: Container::Pixel) -> Result<(), Refused> {
        self.fill_pixels(window, &[value])
    }

    /// The window gets the pixels of `source`, which has its size.
    ///
    /// # Errors
    ///
    /// [`Refused::WindowOutside`], [`Refused::SizesDiffer`].
    pub fn copy_window(&mut self, window: Window, source: ImgRef<'_, Container::Pixel>) -> Result<(), Refused> {
        let (is, of, part) = (self.in_cells(), source.in_cells(), Self::window_in_cells(window));
        let ((cells, len), (from, from_len)) = (cells_of_mut(self.buf.cells_mut()), cells_of(source.buf));
        done(unsafe { (calls_on::<Container>().copy_window)(cells, len, is.width, is.height, is.stride, part, from, from_len, of.width, of.height, of.stride) })
    }

    /// The window `to` gets the pixels that the window `from` had; they may overlap.
    ///
    /// # Errors
    ///
    /// [`Refused::WindowOutside`] for either, [`Refused::SizesDiffer`].
    pub fn move_window(&mut self, from: Window, to: Window) -> Result<(), Refused> {
        let (is, (cells, len)) = (self.in_cells(), cells_of_mut(self.buf.cells_mut()));
        done(unsafe { (calls_on::<Container>().move_window)(cells, len, is.width, is.height, is.stride, Self::window_in_cells(from), Self::window_in_cells(to)) })
    }

    /// Each tile of the window, from its corner on, gets the pixel that was at the tile's corner.
    ///
    /// # Errors
    ///
    /// [`Refused::WindowOutside`], [`Refused::NoTile`].
    pub fn mosaic(&mut self, window: Window, tile_width: usize, tile_height: usize) -> Result<(), Refused> {
        self.mosaic_pixels(1, window, tile_width, tile_height)
    }

    /// Every colour of the window becomes `pixel`, which may be several pixels of this image, next to one
    /// another in a row. The width of this image is a multiple of their number, and the window is counted
    /// in colours. A colour has 1 to 4 cells.
    ///
    /// # Errors
    ///
    /// [`Refused::NotAnImage`] for another number of cells or a width that is no multiple,
    /// [`Refused::WindowOutside`].
    pub fn fill_pixels(&mut self, window: Window, pixel: &[Container::Pixel]) -> Result<(), Refused> {
        let (is, (cells, len)) = (self.in_colours(pixel.len())?, cells_of_mut(self.buf.cells_mut()));
        done(unsafe { (calls_on::<Container>().fill_pixels)(cells, len, is.width, is.height, is.stride, window, cells_of(pixel).0, is.channels) })
    }

    /// The same as [`Img::mosaic`] for colours of `channels` pixels, as [`Img::fill_pixels`] has them.
    ///
    /// # Errors
    ///
    /// [`Refused::NotAnImage`] as in [`Img::fill_pixels`], [`Refused::WindowOutside`],
    /// [`Refused::NoTile`].
    pub fn mosaic_pixels(&mut self, channels: usize, window: Window, tile_width: usize, tile_height: usize) -> Result<(), Refused> {
        let (is, (cells, len)) = (self.in_colours(channels)?, cells_of_mut(self.buf.cells_mut()));
        done(unsafe { (calls_on::<Container>().mosaic_pixels)(cells, len, is.width, is.height, is.stride, is.channels, window, tile_width, tile_height) })
    }

    /// Turns the image in place. It has to be a square, unless it is turned by a half.
    ///
    /// # Errors
    ///
    /// [`Refused::SizesDiffer`].
    pub fn turn(&mut self, turn: Turn) -> Result<(), Refused> {
        self.turn_pixels(1, turn)
    }

    /// The same for colours of `channels` cells, as [`Img::fill_pixels`] has them.
    ///
    /// # Errors
    ///
    /// [`Refused::NotAnImage`] as in [`Img::fill_pixels`], [`Refused::SizesDiffer`].
    pub fn turn_pixels(&mut self, channels: usize, turn: Turn) -> Result<(), Refused> {
        let (is, (cells, len)) = (self.in_colours(channels)?, cells_of_mut(self.buf.cells_mut()));
        done(unsafe { (calls_on::<Container>().turn)(cells, len, is.width, is.height, is.stride, is.channels, turn as u32) })
    }

    /// Rows become columns in place. The image has to be a square.
    ///
    /// # Errors
    ///
    /// [`Refused::SizesDiffer`].
    pub fn transpose(&mut self) -> Result<(), Refused> {
        self.transpose_pixels(1)
    }

    /// The same for colours of `channels` cells, as [`Img::fill_pixels`] has them.
    ///
    /// # Errors
    ///
    /// [`Refused::NotAnImage`] as in [`Img::fill_pixels`], [`Refused::SizesDiffer`].
    pub fn transpose_pixels(&mut self, channels: usize) -> Result<(), Refused> {
        let (is, (cells, len)) = (self.in_colours(channels)?, cells_of_mut(self.buf.cells_mut()));
        done(unsafe { (calls_on::<Container>().transpose)(cells, len, is.width, is.height, is.stride, is.channels) })
    }

    /// The first row changes places with the last, and so on. Whole rows do so, and it is the same
    /// whatever a colour is: so it takes no `channels`, nor does [`Img::swap_rows`].
    ///
    /// # Errors
    ///
    /// None for a buffer that gives the same cells on each call.
    pub fn flip_rows(&mut self) -> Result<(), Refused> {
        let (is, (cells, len)) = (self.in_cells(), cells_of_mut(self.buf.cells_mut()));
        done(unsafe { (calls_on::<Container>().flip_rows)(cells, len, is.width, is.height, is.stride, 1, Window::new(0, 0, is.width, is.height)) })
    }

    /// The first column changes places with the last, and so on.
    ///
    /// # Errors
    ///
    /// None for a buffer that gives the same cells on each call.
    pub fn flip_columns(&mut self) -> Result<(), Refused> {
        self.flip_pixels(1)
    }

    /// The same for colours of `channels` cells, as [`Img::fill_pixels`] has them.
    ///
    /// # Errors
    ///
    /// [`Refused::NotAnImage`] as in [`Img::fill_pixels`].
    pub fn flip_pixels(&mut self, channels: usize) -> Result<(), Refused> {
        let (is, (cells, len)) = (self.in_colours(channels)?, cells_of_mut(self.buf.cells_mut()));
        done(unsafe { (calls_on::<Container>().flip_columns)(cells, len, is.width, is.height, is.stride, is.channels, Window::new(0, 0, is.width, is.height)) })
    }

    /// Rows `y` and `z` change places.
    ///
    /// # Errors
    ///
    /// [`Refused::PlaceOutside`].
    pub fn swap_rows(&mut self, y: usize, z: usize) -> Result<(), Refused> {
        let (is, (cells, len)) = (self.in_cells(), cells_of_mut(self.buf.cells_mut()));
        done(unsafe { (calls_on::<Container>().swap_rows)(cells, len, is.width, is.height, is.stride, 1, y, z) })
    }

    /// Each tile of the window, from its corner on, gets the mean of its colours, which have `channels`
    /// pixels: 1 for pixels such as `[u8; 3]`. Each cell is a mean of its own, rounded to the nearest number: a half goes up.
    ///
    /// # Errors
    ///
    /// Those of [`Img::mosaic_pixels`].
    pub fn mosaic_means(&mut self, channels: usize, window: Window, tile_width: usize, tile_height: usize) -> Result<(), Refused>
    where
        Container::Pixel: Sample,
    {
        let (is, (cells, len)) = (self.in_colours(channels)?, cells_of_mut(self.buf.cells_mut()));
        done(unsafe { Means::<Container::Pixel>::CALL(cells, len, is.width, is.height, is.stride, is.channels, window, tile_width, tile_height) })
    }

    /// Each pixel of the window becomes the mean of the box around it, rounded to the nearest number: a
    /// half goes up. Each cell is a mean of its own, and has one byte. The box has so many pixels on each
    /// side, or by two numbers on the left and on the right, and above and below. It is cut at the window's
    /// edges. Allocates a copy of the window, and a number for each cell of a row.
    ///
    /// ```
    /// let mut image = imgref_proved::ImgVec::new(vec![[0u8, 1], [10, 1], [20, 1], [90, 1]], 4, 1)?;
    /// image.blur(image.whole(), 1)?;
    /// assert_eq!(image.buf()[..], [[5, 1], [10, 1], [40, 1], [55, 1]]);
    /// image.blur(image.whole(), (0, 3))?; // across and down
    /// # Ok::<(), imgref_proved::Refused>(())
    /// ```
    ///
    /// Pixels of other cells don't compile:
    ///
    /// ```compile_fail
    /// let mut image = imgref_proved::ImgVec::new(vec![0u16; 4], 2, 2).unwrap();
    /// let _ = image.blur(image.whole(), 1);
    /// ```
    ///
    /// # Errors
    ///
    /// [`Refused::WindowOutside`], [`Refused::TooLarge`] for a radius of 2^15 or more.
    pub fn blur(&mut self, window: Window, radius: impl Into<Radius>) -> Result<(), Refused>
    where
        Container::Pixel: Sample,
    {
        self.blur_pixels(1, window, radius)
    }

    /// The same for colours of `channels` pixels, as [`Img::fill_pixels`] has them.
    ///
    /// # Errors
    ///
    /// Those of [`Img::blur`], and [`Refused::NotAnImage`] as in [`Img::fill_pixels`].
    pub fn blur_pixels(&mut self, channels: usize, window: Window, radius: impl Into<Radius>) -> Result<(), Refused>
    where
        Container::Pixel: Sample,
    {
        let (is, Radius { across, down }, (mut bytes, mut numbers)) = (self.in_colours(channels)?, radius.into(), (0, 0));
        let (cells, len) = cells_of_mut(self.buf.cells_mut());
        done(unsafe { imgref_blur_room(len, is.width, is.height, is.stride, is.channels, window, &mut bytes, &mut numbers) })?;
        let (mut copy, mut sums) = (vec![0; bytes], vec![0; numbers]);
        done(unsafe { Means::<Container::Pixel>::BLUR(cells, len, is.width, is.height, is.stride, is.channels, window, across, down, copy.as_mut_ptr(), bytes, sums.as_mut_ptr(), numbers) })
    }

    /// Joins the rows at the front of the buffer, over what lies between them: on a window that is its
    /// parent's pixels.
    ///
    /// The stride is the width from now on, or 1 for width 0. Returns the pixels, the width and the
    /// height. What comes after them stays. [`Img::to_contiguous_buf`] copies the pixels instead.
    ///
    /// # Errors
    ///
    /// None for a buffer that gives the same cells on each call.
    pub fn as_contiguous_buf(&mut self) -> Result<(&[Container::Pixel], usize, usize), Refused> {
        let (is, (cells, len)) = (self.in_cells(), cells_of_mut(self.buf.cells_mut()));
        done(unsafe { (calls_on::<Container>().pack)(cells, len, is.width, is.height, is.stride) })?;
        self.stride = self.width.max(1);
        Ok((&self.buf.cells()[..self.width * self.height], self.width, self.height))
    }

    /// A window as an image over the same pixels.
    ///
    /// # Errors
    ///
    /// [`Refused::WindowOutside`].
    pub fn sub_image_mut(&mut self, left: usize, top: usize, width: usize, height: usize) -> Result<ImgRefMut<'_, Container::Pixel>, Refused> {
        let stretch = self.stretch(Window::new(left, top, width, height))?;
        Ok(Img { buf: &mut self.buf.cells_mut()[stretch], width, height, stride: self.stride })
    }

    /// The rows for writing, each as a slice of its `width` pixels. An image of width 0 has no row.
    pub fn rows_mut(&mut self) -> impl ExactSizeIterator<Item = &mut [Container::Pixel]> + DoubleEndedIterator {
        let (width, height, stride) = (self.width, self.height, self.stride);
        self.buf.cells_mut().chunks_mut(stride).take(if width == 0 { 0 } else { height }).map(move |it| &mut it[..width])
    }

    /// The pixels for writing, row by row.
    pub fn pixels_mut(&mut self) -> impl Iterator<Item = &mut Container::Pixel> {
        self.rows_mut().flatten()
    }
}

impl<T: Pixel> ImgVec<T> {
    /// The same as [`Img::as_contiguous_buf`], with a `Vec` of exactly the pixels.
    ///
    /// # Errors
    ///
    /// None.
    pub fn into_contiguous_buf(mut self) -> Result<(Vec<T>, usize, usize), Refused> {
        let count = self.as_contiguous_buf()?.0.len();
        self.buf.truncate(count);
        Ok((self.buf, self.width, self.height))
    }
}
