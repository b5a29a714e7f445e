//! The points (minutiae) of a FINGERS container that conforms, the first view's and then the second's: as five lists of
//! numbers, and as one list of points. They are personal, and no report has them.

use crate::card::{self, Verdict, CONFORMS};
use crate::{number, values};

/// The calls here have no kind: a container is checked as FINGERS.
pub const KIND: u64 = 6;

/// No container has more points than its two views can have.
pub const MOST_POINTS: usize = 2 * values::MINUTIAE_MOST;

/// A point: its type, 0 to 2, where it is, 0 to 16,383 each, its angle, 0 to 179, as the card has it, and its quality, 0 to 100. The
/// default has zeros alone.
#[derive(Clone, Copy, Debug, Default, PartialEq, Eq)]
pub struct Point {
    pub sort: u64,
    pub x: u64,
    pub y: u64,
    pub angle: u64,
    pub quality: u64,
}

impl Point {
    /// The point of the six bytes of a minutia that keeps the rules.
    #[inline]
    fn of(minutia: &[u8]) -> Point {
        let type_and_x = u16::from_be_bytes([minutia[0], minutia[1]]);
        Point {
            sort: u64::from(type_and_x >> 14),
            x: u64::from(type_and_x & 0x3FFF),
            // the two bits before it are zero
            y: u64::from(u16::from_be_bytes([minutia[2], minutia[3]])),
            angle: u64::from(minutia[4]),
            quality: u64::from(minutia[5]),
        }
    }
}

/// How many points the first view has, and the second; both 0 on a refusal.
pub type Counts = [u64; 2];

/// Fills five lists with the types, x, y, angles and qualities of the points: the verdict, and the counts. Zeros are behind the
/// last point up to each list's own end, or in all lists after a refusal: that of check, or then 3 for a list that is too short.
pub fn lists(today: u64, container: &[u8], lent: [&mut [u64]; 5]) -> (Verdict, Counts) {
    let [types, xs, ys, angles, qualities] = lent;
    let entries = types.len().min(xs.len()).min(ys.len()).min(angles.len()).min(qualities.len());
    let (verdict, views) = minutiae(today, container, entries);
    let mut at = 0;
    for view in views {
        let places = types[at..].iter_mut().zip(&mut xs[at..]).zip(&mut ys[at..]);
        let places = places.zip(&mut angles[at..]).zip(&mut qualities[at..]);
        for (minutia, ((((sort, x), y), angle), quality)) in view.chunks_exact(values::MINUTIA_BYTES).zip(places) {
            let point = Point::of(minutia);
            *sort = point.sort;
            *x = point.x;
            *y = point.y;
            *angle = point.angle;
            *quality = point.quality;
        }
        at += count(view);
    }
    for list in [types, xs, ys, angles, qualities] {
        list[at..].fill(0);
    }
    (verdict, counts(views))
}

/// Fills one list with the points, and answers likewise.
pub fn points(today: u64, container: &[u8], list: &mut [Point]) -> (Verdict, Counts) {
    let (verdict, views) = minutiae(today, container, list.len());
    let mut at = 0;
    for view in views {
        for (point, minutia) in list[at..].iter_mut().zip(view.chunks_exact(values::MINUTIA_BYTES)) {
            *point = Point::of(minutia);
        }
        at += count(view);
    }
    list[at..].fill(Point::default());
    (verdict, counts(views))
}

/// The verdict, and the minutiae of both views, of which so many entries hold all. After a refusal there are none.
fn minutiae(today: u64, container: &[u8], entries: usize) -> (Verdict, [&[u8]; 2]) {
    match minutiae_of_checked(today, container) {
        Ok(views) if count(views[0]) + count(views[1]) <= entries => (CONFORMS, views),
        Ok(_) => (card::without_place(number::ROOM), [&[][..]; 2]),
        Err(broken) => (broken, [&[][..]; 2]),
    }
}

fn minutiae_of_checked(today: u64, container: &[u8]) -> Result<[&[u8]; 2], Verdict> {
    let mut value = &container[..0];
    card::checked(KIND, today, container, |row, start, end| {
        // BC is the first row, and FE the other
        if row == 0 {
            value = &container[start..end];
        }
    })?;
    Ok(values::minutiae_of(value))
}

fn count(minutiae: &[u8]) -> usize {
    minutiae.len() / values::MINUTIA_BYTES
}

fn counts(views: [&[u8]; 2]) -> Counts {
    views.map(|view| count(view) as u64)
}
