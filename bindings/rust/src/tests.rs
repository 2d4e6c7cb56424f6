//! Each call on each kind of buffer, and each refusal.

use std::cell::Cell as Count;
use std::panic::{catch_unwind, AssertUnwindSafe};

use super::{Buffer, BufferMut, Img, ImgRef, ImgRefMut, ImgVec, Pixel, Radius, Refused, Sample, Turn, Window};

// 3 by 2 at stride 4: the cells 3, 7 and 8 are padding.
const CELLS: [u8; 9] = [1, 2, 3, 90, 4, 5, 6, 91, 92];

fn image(cells: &mut [u8]) -> ImgRefMut<'_, u8> {
    ImgRefMut::new_stride(cells, 3, 2, 4).unwrap()
}

#[test]
fn gets_and_puts() {
    let mut cells = CELLS;
    let mut image = image(&mut cells);
    assert_eq!(image.get(2, 1), Ok(6));
    assert_eq!(image.get(3, 1), Err(Refused::PlaceOutside));
    assert_eq!(image.put(0, 2, 7), Err(Refused::PlaceOutside));
    image.put(0, 1, 7).unwrap();
    assert_eq!(image[(0, 1)], 7);
    image[(1, 1)] += 3;
    assert_eq!(cells, [1, 2, 3, 90, 7, 8, 6, 91, 92]);
}

#[test]
#[should_panic(expected = "a pixel of the image")]
fn has_no_place_outside() {
    let _ = ImgRef::new_stride(&CELLS[..], 3, 2, 4).unwrap()[(3, 0)];
}

#[test]
fn fills_a_window_and_no_padding() {
    let mut cells = CELLS;
    let mut image = image(&mut cells);
    image.fill_window(Window::new(1, 0, 2, 2), 0).unwrap();
    assert_eq!(image.fill_window(Window::new(2, 0, 2, 2), 7), Err(Refused::WindowOutside));
    assert_eq!(image.fill_window(Window::new(usize::MAX, 0, 2, 2), 7), Err(Refused::WindowOutside));
    assert_eq!(cells, [1, 0, 0, 90, 4, 0, 0, 91, 92]);
}

#[test]
fn copies_and_moves() {
    let mut image = ImgVec::new(vec![0u32; 6], 3, 2).unwrap();
    let source = Img::new([1u32, 2, 3, 4], 2, 2).unwrap();
    image.copy_window(Window::new(1, 0, 2, 2), source.as_ref()).unwrap();
    assert_eq!(image.copy_window(Window::new(0, 0, 1, 1), source.as_ref()), Err(Refused::SizesDiffer));
    image.move_window(Window::new(1, 0, 2, 2), Window::new(0, 0, 2, 2)).unwrap();
    assert_eq!(image.into_buf(), [1, 2, 2, 3, 4, 4]);
}

#[test]
fn windows_are_the_same_cells() {
    let mut cells = CELLS;
    let mut image = image(&mut cells);
    image.sub_image_mut(1, 1, 2, 1).unwrap().put(1, 0, 77).unwrap();
    image.as_mut().sub_image_mut(0, 0, 1, 1).unwrap()[(0, 0)] = 78;
    let read = ImgRef::new_stride(&cells[..], 3, 2, 4).unwrap();
    assert_eq!(read.sub_image(1, 0, 2, 2).unwrap().get(1, 1), Ok(77));
    assert_eq!(read[(0, 0)], 78);
    assert_eq!(read.sub_image(3, 2, 0, 0).unwrap().buf().len(), 0);
    assert_eq!(read.sub_image(3, 2, 1, 0).err(), Some(Refused::WindowOutside));
}

#[test]
fn gives_rows_and_pixels() {
    let mut cells = CELLS;
    let mut image = image(&mut cells);
    assert_eq!(image.rows().collect::<Vec<_>>(), [[1, 2, 3], [4, 5, 6]]);
    assert_eq!(image.rows().rev().len(), 2);
    assert_eq!(image.pixels().collect::<Vec<_>>(), [1, 2, 3, 4, 5, 6]);
    assert_eq!(image.to_contiguous_buf(), (vec![1, 2, 3, 4, 5, 6], 3, 2));
    image.rows_mut().for_each(|it| it[0] = 0);
    image.pixels_mut().for_each(|it| *it += 1);
    assert_eq!(cells, [1, 3, 4, 90, 1, 6, 7, 91, 92]);
    let none = ImgVec::<u16>::new(vec![], 0, 7).unwrap();
    assert_eq!((none.rows().count(), none.pixels().count(), none.stride()), (0, 0, 1));
    assert_eq!(ImgVec::<u16>::new(vec![], 7, 0).unwrap().rows().count(), 0);
}

#[test]
fn makes_mosaics_and_tiles() {
    let mut cells = CELLS;
    let mut image = image(&mut cells);
    let tiles: Vec<Window> = image.tiles(2, 2).unwrap().collect();
    assert_eq!(tiles, [Window::new(0, 0, 2, 2), Window::new(2, 0, 1, 2)]);
    assert_eq!(image.tiles(0, 2).err(), Some(Refused::NoTile));
    assert_eq!(image.mosaic(image.whole(), 2, 0), Err(Refused::NoTile));
    image.mosaic(Window::new(0, 0, 3, 2), 2, 2).unwrap();
    assert_eq!(cells, [1, 1, 3, 90, 1, 1, 3, 91, 92]);
}

#[test]
fn joins_rows_and_compares() {
    let mut cells = CELLS;
    let first = Img::new_stride(CELLS, 3, 2, 4).unwrap();
    let mut image = image(&mut cells);
    assert_eq!(image.as_contiguous_buf(), Ok((&[1, 2, 3, 4, 5, 6][..], 3, 2)));
    assert_eq!((image.width(), image.height(), image.stride()), (3, 2, 3));
    assert!(image == first && first == image && image != first.sub_image(0, 0, 3, 1).unwrap());
    assert_eq!(cells, [1, 2, 3, 4, 5, 6, 6, 91, 92]);
    let owned = ImgVec::new_stride(CELLS.to_vec(), 3, 2, 4).unwrap();
    assert_eq!(owned.clone(), first);
    assert_eq!(owned.into_contiguous_buf(), Ok((vec![1, 2, 3, 4, 5, 6], 3, 2)));
}

#[test]
fn joins_the_rows_of_a_window_over_its_parent() {
    let mut image = ImgVec::new(vec![1u8, 2, 3, 4, 5, 6], 3, 2).unwrap();
    assert_eq!(image.sub_image_mut(0, 0, 2, 2).unwrap().as_contiguous_buf(), Ok((&[1, 2, 4, 5][..], 2, 2)));
    assert_eq!(image.into_buf(), [1, 2, 4, 5, 5, 6]);
}

// Two colours of three cells in a row, and a cell of padding.
#[test]
fn takes_colours_of_several_cells() {
    let mut image = ImgVec::new_stride(vec![1u16, 2, 3, 4, 5, 6, 90, 7, 8, 9, 10, 11, 12, 91], 6, 2, 7).unwrap();
    image.fill_pixels(Window::new(1, 0, 1, 2), &[600, 601, 602]).unwrap();
    assert_eq!(image.buf()[..], [1, 2, 3, 600, 601, 602, 90, 7, 8, 9, 600, 601, 602, 91]);
    image.mosaic_pixels(3, Window::new(0, 0, 2, 2), 2, 2).unwrap();
    let before = [1, 2, 3, 1, 2, 3, 90, 1, 2, 3, 1, 2, 3, 91];
    assert_eq!(image.buf()[..], before);
    for channels in [0, 5] {
        assert_eq!(image.mosaic_pixels(channels, Window::new(0, 0, 1, 1), 1, 1), Err(Refused::NotAnImage));
        assert_eq!(image.fill_pixels(Window::new(0, 0, 1, 1), &[1; 5][..channels]), Err(Refused::NotAnImage));
    }
    assert_eq!(image.fill_pixels(Window::new(2, 0, 1, 1), &[1, 2, 3]), Err(Refused::WindowOutside));
    assert_eq!(image.mosaic_pixels(3, Window::new(0, 0, 1, 1), 0, 1), Err(Refused::NoTile));
    assert_eq!(image.into_buf(), before);
}

// A row that colours don't fill is no image of colours, in each call that takes them.
#[test]
fn refuses_a_width_that_is_no_multiple() {
    let mut image = ImgVec::new((1..15).collect::<Vec<u8>>(), 7, 2).unwrap();
    let mut whole = ImgVec::new_stride(vec![0u8; 14], 6, 2, 7).unwrap();
    let first = Window::new(0, 0, 1, 1);
    let none = Err(Refused::NotAnImage);
    assert_eq!(image.fill_pixels(first, &[1, 2, 3]), none);
    assert_eq!(image.mosaic_pixels(3, first, 1, 1), none);
    assert_eq!(image.mosaic_means(3, first, 1, 1), none);
    assert_eq!(image.count_pixels(first, &[1, 2, 3]), Err(Refused::NotAnImage));
    assert_eq!(image.turn_pixels_into(3, &mut whole, Turn::Half), none);
    assert_eq!(whole.turn_pixels_into(3, &mut image, Turn::Half), none);
    assert_eq!(image.transpose_pixels_into(3, &mut whole), none);
    assert_eq!(whole.transpose_pixels_into(3, &mut image), none);
    assert_eq!(image.turn_pixels(3, Turn::Half), none);
    assert_eq!(image.transpose_pixels(3), none);
    assert_eq!(image.flip_pixels(3), none);
    assert_eq!(image.into_buf(), (1..15).collect::<Vec<u8>>());
    assert_eq!(whole.into_buf(), [0; 14]);
}

#[repr(C)]
#[derive(Clone, Copy, Debug, Default, PartialEq)]
struct Rgb8 {
    red: u8,
    green: u8,
    blue: u8,
}

// SAFETY: three bytes next to one another, without padding, each of which may be any number.
unsafe impl Pixel for Rgb8 {
    type Cell = u8;
}
unsafe impl Sample for Rgb8 {}

// The colour that a number stands for in the tests below.
trait Numbered: Pixel + PartialEq + std::fmt::Debug {
    fn number(it: u8) -> Self;
}

impl Numbered for Rgb8 {
    fn number(it: u8) -> Self {
        Rgb8 { red: it, green: 100 - it, blue: 7 }
    }
}

impl Numbered for [u8; 3] {
    fn number(it: u8) -> Self {
        [it, 0, it]
    }
}

impl Numbered for [u16; 4] {
    fn number(it: u8) -> Self {
        [0xff00 + u16::from(it), 1, 2, 3]
    }
}

impl Numbered for u32 {
    fn number(it: u8) -> Self {
        u32::from(it) << 24
    }
}

impl Numbered for char {
    fn number(it: u8) -> Self {
        char::from(it)
    }
}

fn colours<T: Numbered>(numbers: &[u8]) -> Vec<T> {
    numbers.iter().map(|it| T::number(*it)).collect()
}

// By their bytes, so that a NaN equals itself.
fn are_equal<T: Numbered>(image: &Img<impl Buffer<Pixel = T>>, numbers: &[u8]) {
    let wanted = ImgVec::new(colours::<T>(numbers), image.width(), image.height()).unwrap();
    assert!(*image == wanted, "{:?} is not {numbers:?}", image.to_contiguous_buf().0);
}

// Each call on 3 by 2 pixels at stride 4, where the pixels 3, 7 and 8 are padding.
fn calls_on_pixels<T: Numbered>() {
    let mut image = ImgVec::new_stride(colours::<T>(&CELLS), 3, 2, 4).unwrap();
    let one = T::number(50);
    assert_eq!((image.width(), image.height(), image.stride(), image.count(image.whole(), T::number(5))), (3, 2, 4, Ok(1)));
    image.put(2, 1, one).unwrap();
    assert_eq!(image.put(3, 1, one), Err(Refused::PlaceOutside));
    image.fill_window(Window::new(1, 0, 1, 2), T::number(7)).unwrap();
    are_equal(&image, &[1, 7, 3, 4, 7, 50]);
    for window in [Window::new(2, 0, 2, 1), Window::new(usize::MAX / 2, 0, 1, 1), Window::new(0, 0, usize::MAX, 1)] {
        assert_eq!(image.fill_window(window, one), Err(Refused::WindowOutside));
        assert_eq!(image.move_window(window, window), Err(Refused::WindowOutside));
        assert_eq!(image.copy_window(window, ImgRef::new(&[one][..], 1, 1).unwrap()), Err(Refused::WindowOutside));
    }
    image.move_window(Window::new(0, 0, 2, 2), Window::new(1, 0, 2, 2)).unwrap();
    are_equal(&image, &[1, 1, 7, 4, 4, 7]);
    image.copy_window(Window::new(0, 1, 3, 1), ImgRef::new(&colours::<T>(&[8, 9, 10])[..], 3, 1).unwrap()).unwrap();
    image.flip_rows().unwrap();
    image.flip_columns().unwrap();
    are_equal(&image, &[10, 9, 8, 7, 1, 1]);
    image.swap_rows(0, 1).unwrap();
    let mut upright = ImgVec::new(colours::<T>(&[0; 6]), 2, 3).unwrap();
    image.turn_into(&mut upright, Turn::Right).unwrap();
    are_equal(&upright, &[10, 7, 9, 1, 8, 1]);
    image.transpose_into(&mut upright).unwrap();
    are_equal(&upright, &[7, 10, 1, 9, 1, 8]);
    image.turn(Turn::Half).unwrap();
    image.mosaic(Window::new(0, 0, 3, 1), 2, 1).unwrap();
    are_equal(&image, &[8, 8, 10, 1, 1, 7]);
    let mut square = image.sub_image_mut(1, 0, 2, 2).unwrap();
    square.transpose().unwrap();
    square.turn(Turn::Left).unwrap();
    are_equal(&square, &[1, 7, 8, 10]);
    assert_eq!((square.get(1, 1), square.get(2, 1), square.rows().len()), (Ok(T::number(10)), Err(Refused::PlaceOutside), 2));
    image.rows_mut().for_each(|row| row[0] = T::number(3));
    let (buf, width, height) = image.into_contiguous_buf().unwrap();
    are_equal(&ImgVec::new(buf, width, height).unwrap(), &[3, 1, 7, 3, 8, 10]);
}

#[test]
fn takes_pixels_of_the_callers() {
    calls_on_pixels::<Rgb8>();
    calls_on_pixels::<[u8; 3]>();
    calls_on_pixels::<[u16; 4]>();
    calls_on_pixels::<u32>();
    calls_on_pixels::<char>();
    let (numbers, same, negative) = (Img::new([[0.0, f64::NAN]], 1, 1).unwrap(), Img::new([[0.0, f64::NAN]], 1, 1).unwrap(), Img::new([[-0.0, f64::NAN]], 1, 1).unwrap());
    assert!(numbers == same && numbers != negative && numbers.count(numbers.whole(), [0.0, f64::NAN]) == Ok(1));
}

// A colour of two pixels of two cells, and means of the caller's colours.
#[test]
fn takes_colours_of_pixels_and_their_means() {
    let mut image = ImgVec::new(vec![[1u8, 2], [3, 4], [5, 6], [7, 8]], 4, 1).unwrap();
    image.flip_pixels(2).unwrap();
    assert_eq!(image.buf()[..], [[5, 6], [7, 8], [1, 2], [3, 4]]);
    assert_eq!(image.flip_pixels(4), Err(Refused::NotAnImage));
    let grey = |it| Rgb8 { red: it, green: it, blue: 1 };
    let mut image = ImgVec::new(vec![grey(1), grey(2), grey(9)], 3, 1).unwrap();
    image.mosaic_means(1, image.whole(), 2, 1).unwrap();
    assert_eq!(image.into_buf(), [grey(2), grey(2), grey(9)]);
}

// The longest row has fewer than 2^32 cells, and no product of a size overflows.
#[test]
fn refuses_rows_of_too_many_cells() {
    for (width, height, stride) in [(1 << 31, 0, 1 << 31), (usize::MAX / 2 + 2, 0, usize::MAX), (0, 2, usize::MAX / 2 + 2)] {
        assert_eq!(ImgRef::<[u8; 2]>::new_stride(&[], width, height, stride).err(), Some(Refused::NotAnImage));
    }
    assert!(ImgRef::<[u8; 2]>::new_stride(&[], (1 << 31) - 1, 0, 1 << 31).is_ok());
}

#[test]
fn turns_and_flips() {
    let mut cells = CELLS;
    let mut image = image(&mut cells);
    let mut upright = ImgVec::new(vec![0u8; 6], 2, 3).unwrap();
    let mut flat = ImgVec::new(vec![0u8; 6], 3, 2).unwrap();
    image.turn_into(&mut upright, Turn::Right).unwrap();
    assert_eq!(upright.buf()[..], [4, 1, 5, 2, 6, 3]);
    image.turn_into(&mut upright, Turn::Left).unwrap();
    assert_eq!(upright.buf()[..], [3, 6, 2, 5, 1, 4]);
    image.turn_into(&mut flat, Turn::Half).unwrap();
    assert_eq!(flat.buf()[..], [6, 5, 4, 3, 2, 1]);
    image.transpose_into(&mut upright).unwrap();
    assert_eq!(upright.buf()[..], [1, 4, 2, 5, 3, 6]);
    assert_eq!(image.turn_into(&mut flat, Turn::Left), Err(Refused::SizesDiffer));
    assert_eq!(image.transpose_into(&mut flat), Err(Refused::SizesDiffer));
    assert_eq!(image.transpose_pixels_into(0, &mut flat), Err(Refused::NotAnImage));
    assert_eq!(image.swap_rows(0, 2), Err(Refused::PlaceOutside));
    image.flip_rows().unwrap();
    image.flip_columns().unwrap();
    image.swap_rows(0, 1).unwrap();
    assert_eq!(cells, [3, 2, 1, 90, 6, 5, 4, 91, 92]);
    let mut colours = ImgVec::new(vec![1u16, 2, 3, 4, 5, 6], 6, 1).unwrap();
    let mut column = ImgVec::new(vec![0u16; 6], 3, 2).unwrap();
    assert_eq!(colours.count(colours.whole(), 4), Ok(1));
    assert_eq!(colours.count_pixels(Window::new(0, 0, 2, 1), &[4, 5, 6]), Ok(1));
    assert_eq!(colours.count_pixels(Window::new(0, 0, 2, 1), &[]), Err(Refused::NotAnImage));
    assert_eq!(colours.count(Window::new(0, 0, 7, 1), 4), Err(Refused::WindowOutside));
    colours.flip_pixels(3).unwrap();
    assert_eq!(colours.buf()[..], [4, 5, 6, 1, 2, 3]);
    colours.turn_pixels_into(3, &mut column, Turn::Left).unwrap();
    assert_eq!(column.buf()[..], [1, 2, 3, 4, 5, 6]);
    colours.transpose_pixels_into(3, &mut column).unwrap();
    assert_eq!(column.buf()[..], [4, 5, 6, 1, 2, 3]);
    assert_eq!(colours.flip_pixels(5), Err(Refused::NotAnImage));
}

#[test]
fn turns_in_place() {
    let mut cells = [1u8, 2, 90, 3, 4];
    let mut square = Img::new_stride(&mut cells[..], 2, 2, 3).unwrap();
    square.turn(Turn::Right).unwrap();
    assert_eq!(square.buf()[..], [3, 1, 90, 4, 2]);
    square.transpose().unwrap();
    assert_eq!(square.buf()[..], [3, 4, 90, 1, 2]);
    square.turn(Turn::Left).unwrap();
    assert_eq!(square.buf()[..], [4, 2, 90, 3, 1]);
    let mut colours = ImgVec::new(vec![1u16, 2, 3, 4, 5, 6], 6, 1).unwrap();
    colours.turn_pixels(3, Turn::Half).unwrap();
    assert_eq!(colours.buf()[..], [4, 5, 6, 1, 2, 3]);
    colours.turn(Turn::Half).unwrap();
    assert_eq!(colours.buf()[..], [3, 2, 1, 6, 5, 4]);
    assert_eq!(colours.turn(Turn::Right), Err(Refused::SizesDiffer));
    assert_eq!(colours.transpose_pixels(3), Err(Refused::SizesDiffer));
    assert_eq!(colours.transpose_pixels(5), Err(Refused::NotAnImage));
    assert_eq!(colours.turn_pixels(0, Turn::Half), Err(Refused::NotAnImage));
    let mut pairs = ImgVec::new(vec![1u32, 2, 3, 4, 5, 6, 7, 8], 4, 2).unwrap();
    pairs.transpose_pixels(2).unwrap();
    assert_eq!(pairs.buf()[..], [1, 2, 5, 6, 3, 4, 7, 8]);
}

// The means of two colours of two cells, and of one that the edge leaves in its tile.
#[test]
fn takes_means_of_colours() {
    let mut image = ImgVec::new(vec![1u8, 10, 2, 20, 4, 31], 6, 1).unwrap();
    image.mosaic_means(2, Window::new(0, 0, 3, 1), 2, 1).unwrap();
    assert_eq!(image.mosaic_means(5, Window::new(0, 0, 1, 1), 1, 1), Err(Refused::NotAnImage));
    assert_eq!(image.mosaic_means(2, Window::new(2, 0, 2, 1), 1, 1), Err(Refused::WindowOutside));
    assert_eq!(image.mosaic_means(2, Window::new(0, 0, 1, 1), 1, 0), Err(Refused::NoTile));
    assert_eq!(image.into_buf(), [2, 15, 2, 15, 4, 31]);
    let mut long = ImgVec::new(vec![65535u16, 65534, 3, 0], 2, 2).unwrap();
    long.mosaic_means(1, long.whole(), 2, 1).unwrap();
    assert_eq!(long.into_buf(), [65535, 65535, 2, 2]);
}

// The mean of the box around a pixel of a window, by going over all pixels of the window.
fn box_mean<const N: usize>(image: &ImgVec<[u8; N]>, window: Window, (x, y): (usize, usize), radius: Radius) -> [u8; N] {
    let (mut sums, mut count) = ([0; N], 0);
    for v in 0..window.height {
        for u in 0..window.width {
            if u.abs_diff(x) <= radius.across && v.abs_diff(y) <= radius.down {
                let pixel = image[(window.left + u, window.top + v)];
                sums.iter_mut().zip(pixel).for_each(|(sum, it)| *sum += usize::from(it));
                count += 1;
            }
        }
    }
    sums.map(|sum| u8::try_from((2 * sum + count) / (2 * count)).unwrap())
}

// Windows of 7 by 6 pixels at stride 9, with pixels of `N` cells.
fn blurs_windows<const N: usize>() {
    let mut next = 1u32;
    let mut any = || {
        next = next.wrapping_mul(1_664_525).wrapping_add(1_013_904_223);
        (next >> 24) as u8
    };
    let before = ImgVec::new_stride((0..9 * 6).map(|_| [(); N].map(|()| any())).collect::<Vec<_>>(), 7, 6, 9).unwrap();
    let windows = [before.whole(), Window::new(2, 1, 4, 3), Window::new(0, 5, 7, 1), Window::new(6, 0, 1, 6), Window::new(3, 3, 0, 2), Window::new(7, 6, 0, 0)];
    for (window, radius) in windows.into_iter().flat_map(|window| [(0, 0), (1, 1), (2, 0), (0, 3), (7, 1), (32767, 32767)].map(|it| (window, Radius::from(it)))) {
        let (mut image, mut wanted) = (before.clone(), before.clone().into_buf());
        image.blur(window, radius).unwrap();
        for (x, y) in (0..window.height).flat_map(|y| (0..window.width).map(move |x| (x, y))) {
            wanted[(window.top + y) * 9 + window.left + x] = box_mean(&before, window, (x, y), radius);
        }
        assert_eq!(image.into_buf(), wanted, "{window:?} {radius:?}");
    }
}

#[test]
fn blurs_beside_a_model() {
    blurs_windows::<1>();
    blurs_windows::<2>();
    blurs_windows::<3>();
    blurs_windows::<4>();
}

#[test]
fn blurs_colours_and_refuses() {
    let cells: Vec<u8> = (0..24).map(|it| (it * it) as u8).collect();
    let mut image = ImgVec::new(cells.clone(), 12, 2).unwrap();
    let mut colours = ImgVec::new(cells.chunks(3).map(|it| [it[0], it[1], it[2]]).collect::<Vec<_>>(), 4, 2).unwrap();
    image.blur_pixels(3, Window::new(1, 0, 3, 2), (2, 1)).unwrap();
    colours.blur(Window::new(1, 0, 3, 2), (2, 1)).unwrap();
    assert_eq!(image.buf()[..], colours.buf().concat()[..]);
    assert_ne!(image.buf()[..], cells[..]);
    let before = image.buf().clone();
    assert_eq!(colours.blur(Window::new(2, 0, 3, 1), 1), Err(Refused::WindowOutside));
    assert_eq!(image.blur_pixels(3, Window::new(2, 0, 3, 1), 1), Err(Refused::WindowOutside));
    assert_eq!(image.blur_pixels(5, Window::new(0, 0, 1, 1), 1), Err(Refused::NotAnImage));
    assert_eq!(image.blur_pixels(6, Window::new(0, 0, 1, 1), 1), Err(Refused::NotAnImage));
    for radius in [(32768, 0), (0, 32768), (usize::MAX, usize::MAX)] {
        assert_eq!(image.blur(image.whole(), radius), Err(Refused::TooLarge));
    }
    assert_eq!(image.into_buf(), before);
    let grey = |it| Rgb8 { red: it, green: it, blue: 7 };
    let mut image = ImgVec::new(vec![grey(0), grey(10), grey(21)], 3, 1).unwrap();
    image.blur(image.whole(), 1).unwrap();
    assert_eq!(image.into_buf(), [grey(5), grey(10), grey(16)]);
    let mut none = ImgVec::new(Vec::<u8>::new(), 0, 7).unwrap();
    assert_eq!(none.blur(none.whole(), 3), Ok(()));
}

// Three bytes next to one another are pixels of their own: components and values mix their channels. Four bytes may be one pixel.
#[test]
fn mixes_channels_of_single_bytes() {
    let mut image = ImgVec::new(vec![200u8, 0, 7, 7, 0, 200], 6, 1).unwrap();
    image.flood_fill(2, 0, 9).unwrap();
    assert_eq!(image.buf()[..], [200, 0, 9, 9, 0, 200]);
    let (labels, count) = image.components().unwrap();
    assert_eq!((count, labels.into_buf()), (5, vec![1, 2, 3, 3, 4, 5]));
    assert_eq!((image.bounding_box(200), image.histogram().unwrap()[9]), (Ok(Some(Window::new(0, 0, 6, 1))), 2));
    assert_eq!(image.integral().unwrap().into_buf(), [200, 200, 209, 218, 218, 418]);
    image.mosaic(Window::new(0, 0, 2, 1), 2, 1).unwrap();
    image.equalize().unwrap();
    assert_eq!(image.into_buf(), [255, 255, 127, 127, 42, 255]);
    let mut whole = ImgVec::new([[1u8, 2, 3, 4], [1, 2, 3, 4], [4, 3, 2, 1]].map(u32::from_ne_bytes).to_vec(), 3, 1).unwrap();
    assert_eq!(whole.components().unwrap().1, 2);
    whole.flood_fill(0, 0, 7).unwrap();
    assert_eq!(whole.into_buf(), [7, 7, u32::from_ne_bytes([4, 3, 2, 1])]);
}

fn calls_on<T: Pixel + PartialEq + std::fmt::Debug>(least: T, most: T) {
    let mut image = ImgVec::new_stride(vec![least; 7], 3, 2, 4).unwrap();
    image.fill_window(Window::new(1, 0, 2, 2), most).unwrap();
    image.put(0, 0, most).unwrap();
    image.move_window(Window::new(0, 1, 1, 1), Window::new(2, 1, 1, 1)).unwrap();
    image.mosaic(Window::new(0, 1, 2, 1), 1, 1).unwrap();
    assert_eq!(image.get(1, 1), Ok(most));
    let mut other = ImgVec::new(vec![least; 6], 3, 2).unwrap();
    assert!(other != image);
    other.copy_window(other.whole(), image.as_ref()).unwrap();
    assert!(other == image);
    assert_eq!(image.buf()[..], [most, most, most, least, least, most, least]);
    assert_eq!(image.into_contiguous_buf().unwrap().0, [most, most, most, least, most, least]);
}

#[test]
fn takes_each_number() {
    calls_on(0, u8::MAX);
    calls_on(i8::MIN, i8::MAX);
    calls_on(0, u16::MAX);
    calls_on(i16::MIN, -1);
    calls_on(0, u32::MAX);
    calls_on(i32::MIN, -1);
    calls_on(0, u64::MAX);
    calls_on(i64::MIN, -1);
    calls_on(-0.5f32, 1e30);
    calls_on(f64::MIN, f64::MAX);
    calls_on(false, true);
    calls_on(0, usize::MAX);
}

#[test]
fn refuses_what_is_no_image() {
    for (width, height, stride) in [(3, 3, 4), (3, 2, 2), (3, 2, 0), (3, usize::MAX, usize::MAX), (1 << 32, 0, 1 << 32)] {
        assert_eq!(ImgRef::new_stride(&CELLS[..], width, height, stride).err(), Some(Refused::NotAnImage));
    }
    assert!(ImgRef::<u64>::new(&[], 0, 7).is_ok());
    assert_eq!(Refused::NotAnImage.to_string(), "not an image");
}

// A buffer of the user's, which gives one cell alone from its second call on. Img::new makes the first.
struct Shrinking {
    cells: Vec<u8>,
    calls: Count<usize>,
}

impl Shrinking {
    fn len(&self) -> usize {
        self.calls.set(self.calls.get() + 1);
        if self.calls.get() > 1 { 1 } else { self.cells.len() }
    }
}

impl Buffer for Shrinking {
    type Pixel = u8;

    fn cells(&self) -> &[u8] {
        &self.cells[..self.len()]
    }
}

impl BufferMut for Shrinking {
    fn cells_mut(&mut self) -> &mut [u8] {
        let len = self.len();
        &mut self.cells[..len]
    }
}

#[test]
fn trusts_no_buffer_from_call_to_call() {
    type Call = fn(&mut Img<Shrinking>) -> bool;
    let calls: [(&str, Call); 21] = [
        ("get", |it| it.get(7, 7).is_ok()),
        ("put", |it| it.put(7, 7, 99).is_ok()),
        ("fill_window", |it| it.fill_window(it.whole(), 99).is_ok()),
        ("copy_window", |it| it.copy_window(it.whole(), ImgRef::new(&[99; 64][..], 8, 8).unwrap()).is_ok()),
        ("move_window", |it| it.move_window(Window::new(0, 0, 8, 7), Window::new(0, 1, 8, 7)).is_ok()),
        ("mosaic", |it| it.mosaic(it.whole(), 8, 8).is_ok()),
        ("fill_pixels", |it| it.fill_pixels(Window::new(0, 0, 4, 8), &[98, 99]).is_ok()),
        ("mosaic_pixels", |it| it.mosaic_pixels(2, Window::new(0, 0, 4, 8), 4, 8).is_ok()),
        ("turn_into", |it| ImgRef::new(&[99; 64][..], 8, 8).unwrap().turn_into(it, Turn::Right).is_ok()),
        ("turn", |it| it.turn(Turn::Right).is_ok()),
        ("transpose", |it| it.transpose().is_ok()),
        ("flip_rows", |it| it.flip_rows().is_ok()),
        ("flip_columns", |it| it.flip_columns().is_ok()),
        ("swap_rows", |it| it.swap_rows(0, 7).is_ok()),
        ("mosaic_means", |it| it.mosaic_means(2, Window::new(0, 0, 4, 8), 4, 8).is_ok()),
        ("blur", |it| it.blur(it.whole(), 2).is_ok()),
        ("as_contiguous_buf", |it| it.as_contiguous_buf().is_ok()),
        ("sub_image_mut", |it| it.sub_image_mut(0, 1, 8, 7).and_then(|mut it| it.fill_window(it.whole(), 99)).is_ok()),
        ("rows_mut", |it| it.rows_mut().map(|row| row.fill(99)).count() == 8),
        ("index", |it| it[(7, 7)] == 63),
        ("==", |it| *it == ImgRef::new(&[0; 64][..], 8, 8).unwrap()),
    ];
    for (name, call) in calls {
        let mut image = Img::new(Shrinking { cells: (0..64).collect(), calls: Count::new(0) }, 8, 8).unwrap();
        let answer = catch_unwind(AssertUnwindSafe(|| call(&mut image)));
        assert!(!matches!(answer, Ok(true)), "{name} is done");
        assert!(image.into_buf().cells[1..].iter().copied().eq(1..64), "{name} writes past the buffer");
    }
}

#[test]
fn counts_and_sums_values() {
    let mut cells = [10u8, 10, 20, 99, 30, 20, 20];
    let mut image = ImgRefMut::new_stride(&mut cells[..], 3, 2, 4).unwrap();
    let counts = image.histogram().unwrap();
    assert_eq!((counts[10], counts[20], counts[30], counts[99]), (2, 3, 1, 0));
    assert_eq!(image.integral().unwrap().into_buf(), [10, 20, 40, 40, 70, 110]);
    image.equalize().unwrap();
    assert_eq!(cells, [85, 85, 212, 99, 255, 212, 212]);
    let counts = ImgVec::new(vec![7u16, 65535, 7], 3, 1).unwrap().histogram_u16().unwrap();
    assert_eq!((counts.len(), counts[7], counts[65535]), (65536, 2, 1));
    assert_eq!(ImgVec::new(Vec::<u8>::new(), 0, 7).unwrap().integral().unwrap().height(), 7);
}

#[test]
fn finds_regions() {
    // A ring of ones around a hole, with a cell of padding after each row but the last.
    let ring = vec![1u8, 1, 1, 0, 1, 1, 1, 0, 1, 0, 0, 1, 1, 1, 1, 1, 0, 1, 0, 0, 1, 0, 0];
    let mut image = ImgVec::new_stride(ring, 5, 4, 6).unwrap();
    let (labels, count) = image.components().unwrap();
    assert_eq!((count, labels.get(2, 2), labels.get(1, 1)), (5, Ok(1), Ok(4)));
    assert_eq!(labels.bounding_box(2), Ok(Some(Window::new(3, 0, 2, 4))));
    assert_eq!((labels.count(labels.whole(), 1), labels.bounding_box(6)), (Ok(10), Ok(None)));
    image.flood_fill(2, 2, 7).unwrap();
    assert_eq!(image.flood_fill(5, 0, 7), Err(Refused::PlaceOutside));
    assert_eq!(image.into_buf(), [7, 7, 7, 0, 1, 1, 7, 0, 7, 0, 0, 1, 7, 7, 7, 7, 0, 1, 0, 0, 7, 0, 0]);
    let mut floats = ImgVec::new(vec![0.5f32, 0.5, -0.5, 0.5], 4, 1).unwrap();
    floats.flood_fill(0, 0, 1.5).unwrap();
    assert_eq!((floats.bounding_box(1.5), floats.components().unwrap().1), (Ok(Some(Window::new(0, 0, 2, 1))), 3));
    assert_eq!(ImgVec::new(Vec::<u64>::new(), 0, 7).unwrap().components().unwrap().1, 0);
}
