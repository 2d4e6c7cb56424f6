//! Writes what the Rust crate `imgref` 1.12.3 answers, line by line: the file `stdout` of this crate.
//!
//! Every image holds the cells 1, 2, 3 and so on, so a buffer is told by its first cell and its length.
use imgref::{Img, ImgRef, ImgRefMut, ImgVec};
use std::fmt::Display;

// The number of cells, the width, the height and the stride. Each fits.
const IMAGES: [(usize, usize, usize, usize); 11] = [
    (0, 0, 0, 1),
    (2, 0, 2, 1),
    (3, 3, 0, 3),
    (1, 1, 1, 1),
    (1, 1, 1, 18446744073709551614),
    (4, 2, 2, 2),
    (5, 2, 2, 3),
    (8, 2, 2, 3),
    (7, 3, 2, 4),
    (8, 3, 2, 4),
    (9, 3, 2, 4),
];

fn joined<T: Display>(items: impl IntoIterator<Item = T>) -> String {
    items.into_iter().map(|it| format!(" {it}")).collect()
}

fn rows<'a>(rows: impl IntoIterator<Item = &'a [u8]>) -> String {
    rows.into_iter().map(|row| format!("{} /", joined(row))).collect()
}

fn cells(count: usize) -> Vec<u8> {
    (1..=count as u8).collect()
}

// By turns from the front and from the back, to the end.
fn from_both_ends<I: DoubleEndedIterator>(mut items: I) -> Vec<I::Item> {
    let mut found = Vec::new();
    while let Some(item) = if found.len() % 2 == 0 { items.next() } else { items.next_back() } {
        found.push(item);
    }
    found
}

fn buffer(cells: &[u8]) -> String {
    format!("{} {}", cells[0], cells.len())
}

// Each window of an image, with its buffers by `sub_image`, by `sub_image_mut` of an owner and of a lent
// image, and by `into_sub_image_mut`; and its pixels.
fn windows(name: &str, image: ImgRef<u8>) {
    for left in 0..image.width() {
        for top in 0..image.height() {
            for width in 1..=image.width() - left {
                for height in 1..=image.height() - top {
                    let mut owner = ImgVec::new_stride(image.buf().to_vec(), image.width(), image.height(), image.stride());
                    let mut copy = owner.clone();
                    let shared = image.sub_image(left, top, width, height);
                    let mut lent = copy.as_mut();
                    println!(
                        "{name} {left} {top} {width} {height}: {}, {}, {}, {}:{}",
                        buffer(shared.buf()),
                        buffer(owner.sub_image_mut(left, top, width, height).buf()),
                        buffer(lent.sub_image_mut(left, top, width, height).buf()),
                        buffer(lent.into_sub_image_mut(left, top, width, height).buf()),
                        joined(shared.pixels()),
                    );
                }
            }
        }
    }
}

fn main() {
    for (count, width, height, stride) in IMAGES {
        println!("image {count} {width} {height} {stride}");
        let held = cells(count);
        let image = Img::new_stride(held.as_slice(), width, height, stride);
        let mut owner = ImgVec::new_stride(held.clone(), width, height, stride);
        println!("rows{}", rows(image.rows()));
        println!("rows from the back{}", rows(image.rows().rev()));
        println!("rows from both ends{}", rows(from_both_ends(image.rows())));
        if width > 0 {
            println!("rows by number{}", rows((0..height).map(|y| &image[y])));
        }
        for (turn, row) in from_both_ends(owner.rows_mut()).into_iter().enumerate() {
            row.fill(100 + turn as u8);
        }
        println!("rows written from both ends{}", joined(owner.buf()));
        println!("pixels{}", joined(image.pixels()));
        println!("pixels by reference{}", joined(image.pixels_ref()));
        let mut pixels = image.pixels();
        let left: Vec<usize> = (0..=width * height).map(|_| (pixels.len(), pixels.next()).0).collect();
        println!("pixels left{}", joined(left));
        for (turn, pixel) in owner.pixels_mut().enumerate() {
            *pixel = 50 + turn as u8;
        }
        println!("pixels written{}", joined(owner.buf()));
        let places = (0..count).map(|cell| (cell % stride, cell / stride));
        println!("places{}", joined(places.map(|place| image[place])));
        windows("window", image);
    }
    let held = cells(9);
    println!("in the window 1 0 2 2 of 9 3 2 4");
    windows("window", Img::new_stride(held.as_slice(), 3, 2, 4).sub_image(1, 0, 2, 2));
    let mut held = cells(9);
    let mut written: ImgRefMut<u8> = Img::new_stride(held.as_mut_slice(), 3, 2, 4);
    written[(1usize, 1usize)] = 0;
    written[(3u32, 0u32)] = 100;
    written[1][0] = 50;
    println!("written at places{}", joined(held));
}
