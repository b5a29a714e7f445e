//! The list of points: the library's, by the functions for Rust over its five lists, and the second program's.

use crate::prosianek::{self, Refused};
use second::card::CONFORMS;
use second::points::Counts;
use second::{Point, Verdict};

/// What is answered: the verdict, both counts, and the whole list.
pub type Told = (Verdict, Counts, Vec<Point>);

/// What a list holds before a call: no number that a point has, and none that is zero.
const OLD: u64 = 0xA5A5_A5A5_A5A5_A5A5;

/// The second program's answer with a list of this length.
pub fn by_second(today: u64, container: &[u8], size: usize) -> Told {
    let mut list = vec![Point { sort: OLD, x: OLD, y: OLD, angle: OLD, quality: OLD }; size];
    let (verdict, counts) = second::points(today, container, &mut list);
    (verdict, counts, list)
}

/// The library's.
pub fn by_library(today: u64, container: &[u8], size: usize) -> Told {
    let mut list = vec![prosianek::Point { sort: OLD, x: OLD, y: OLD, angle: OLD, quality: OLD }; size];
    let (verdict, counts) = match prosianek::points(today, container, &mut list) {
        Ok((first, second)) => (CONFORMS, [first as u64, second as u64]),
        Err(Refused { number, place, tag }) => ((number, place, tag.map(one_or_two_bytes)), [0, 0]),
    };
    let point = |point: prosianek::Point| {
        let prosianek::Point { sort, x, y, angle, quality } = point;
        Point { sort, x, y, angle, quality }
    };
    (verdict, counts, list.into_iter().map(point).collect())
}

/// The tag that the library names, as the second program has it.
pub fn one_or_two_bytes(tag: u64) -> u16 {
    u16::try_from(tag).unwrap_or_else(|_| panic!("the library names the tag {:X}", tag))
}

/// What differs between the two, in words.
pub fn difference(today: u64, container: &[u8], size: usize) -> Option<String> {
    let (library, second) = (by_library(today, container, size), by_second(today, container, size));
    if library == second {
        None
    } else {
        Some(format!("different: a list of {} points\n  expected {:?}\n  got      {:?}", size, second, library))
    }
}
