//! What an image may be over.

use crate::Pixel;

/// What an image may be over: a slice, a mutable slice, a `Vec`, a boxed slice, or an array.
///
/// A buffer that gives other pixels from call to call loses nothing but its image: each call tests the
/// sizes again.
pub trait Buffer {
    /// The type of a pixel.
    type Pixel: Pixel;
    /// The pixels for reading, and the padding.
    fn cells(&self) -> &[Self::Pixel];
}

/// A [`Buffer`] for writing too.
pub trait BufferMut: Buffer {
    /// The same for writing.
    fn cells_mut(&mut self) -> &mut [Self::Pixel];
}

impl<T: Pixel> Buffer for &[T] {
    type Pixel = T;

    fn cells(&self) -> &[T] {
        self
    }
}

impl<T: Pixel> Buffer for &mut [T] {
    type Pixel = T;

    fn cells(&self) -> &[T] {
        self
    }
}

impl<T: Pixel> BufferMut for &mut [T] {
    fn cells_mut(&mut self) -> &mut [T] {
        self
    }
}

impl<T: Pixel> Buffer for Vec<T> {
    type Pixel = T;

    fn cells(&self) -> &[T] {
        self
    }
}

impl<T: Pixel> BufferMut for Vec<T> {
    fn cells_mut(&mut self) -> &mut [T] {
        self
    }
}

impl<T: Pixel> Buffer for Box<[T]> {
    type Pixel = T;

    fn cells(&self) -> &[T] {
        self
    }
}

impl<T: Pixel> BufferMut for Box<[T]> {
    fn cells_mut(&mut self) -> &mut [T] {
        self
    }
}

impl<T: Pixel, const N: usize> Buffer for [T; N] {
    type Pixel = T;

    fn cells(&self) -> &[T] {
        self
    }
}

impl<T: Pixel, const N: usize> BufferMut for [T; N] {
    fn cells_mut(&mut self) -> &mut [T] {
        self
    }
}
