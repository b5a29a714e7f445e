//! The points of fingers as five lists: what they are filled with, which lists are long enough, and each refusal.

use super::*;
use crate::fingers::{card_of, some_points};
use crate::generate::{Form, Forms, LONGEST_FORM};
use crate::points::Point;
use crate::records::with_bytes;
use crate::samples;

pub fn all() -> Vec<Group> {
    [points(), lists(), records(), checks()].concat()
}

fn points() -> Vec<Group> {
    vec![worked_lists(), no_points(), order_of_views(), ends_of_numbers(), most_points()]
}

fn lists() -> Vec<Group> {
    vec![one_too_short(), just_long_enough(), all_alike()]
}

fn records() -> Vec<Group> {
    vec![broken_points(), points_too_many(), counts_and_lengths()]
}

fn checks() -> Vec<Group> {
    vec![check_first(), headers_first(), in_longer_forms(), days(), no_container(), large_containers(), other_kinds()]
}

// ---------------------------------------------------------------------------------------------
// The calls, and the points that several groups have

/// A call with five lists of these lengths, which held FF: the counts, and what the lists hold then. Zeros at their end may be left
/// out.
fn call(container: &[u8], sizes: [usize; 5], outcome: Result<([u64; 2], [&[u64]; 5]), Verdict>) -> Case {
    let (verdict, (counts, points)) = match outcome {
        Ok(filled) => (CONFORMS, filled),
        Err(refusal) => (refusal, ([0, 0], [&[][..]; 5])),
    };
    let mut lists = points.map(<[u64]>::to_vec);
    for (list, size) in lists.iter_mut().zip(sizes) {
        assert!(list.len() <= size, "the answer is longer than the list");
        list.resize(size, 0);
    }
    let record = Record { lists: sizes, fill: 0xFF, ..given(Call::Lists, 6, container) };
    (record, Answer { counts, lists, ..told(verdict) })
}

/// The call that fills the lists with these points of both views.
fn filled(container: &[u8], sizes: [usize; 5], views: [&[Point]; 2]) -> Case {
    let points = views.concat();
    let list = |number: fn(&Point) -> u64| points.iter().map(number).collect::<Vec<_>>();
    let [types, xs, ys] = [list(|point| point.sort), list(|point| point.x), list(|point| point.y)];
    let [angles, qualities] = [list(|point| point.angle), list(|point| point.quality)];
    let counts = views.map(|view| view.len() as u64);
    call(container, sizes, Ok((counts, [&types, &xs, &ys, &angles, &qualities])))
}

fn refused(container: &[u8], sizes: [usize; 5], refusal: Verdict) -> Case {
    call(container, sizes, Err(refusal))
}

/// What breaks a rule in BC, which stands at 3 in a container of 131 to 258 bytes.
fn at_3(number: u64) -> Verdict {
    (number, 3, Some(0xBC))
}

const fn point(sort: u64, x: u64, y: u64, angle: u64, quality: u64) -> Point {
    Point { sort, x, y, angle, quality }
}

/// The bytes of three points of the worked cases, and their numbers.
const A: [u8; 6] = [0x40, 0x10, 0x3F, 0x22, 0x50, 0x32];
const B: [u8; 6] = [0xBF, 0xFF, 0x3F, 0xFF, 0xB3, 0x64];
const Z: [u8; 6] = [0; 6];
const POINT_A: Point = point(1, 16, 16_162, 80, 50);
const POINT_B: Point = point(2, 16_383, 16_383, 179, 100);
const POINT_Z: Point = point(0, 0, 0, 0, 0);

/// A minutiae record of the worked cases with these minutiae in its views.
fn record_of(first: &[[u8; 6]], second: &[[u8; 6]]) -> Vec<u8> {
    let length = 38 + 6 * (first.len() + second.len()) as u16;
    [
        b"FMR\x00 200",
        &length.to_be_bytes()[..],
        &[0xEE; 10],
        &[0x00, 0xC5, 0x00, 0xC5, 2, 0],
        &[2, 0x00, 0x28, first.len() as u8],
        &first.concat(),
        &[0, 0],
        &[7, 0x02, 0xFE, second.len() as u8],
        &second.concat(),
        &[0, 0],
    ]
    .concat()
}

/// A container of the worked cases with this FASC-N, these reserved bytes and this record.
fn container_of(fascn: &[u8; 25], reserved: [u8; 4], record: &[u8]) -> Vec<u8> {
    case_of(6, &head_of([0x00, 0x1B, 0x02, 0x01], [0, 0, 8, 0x80]), fascn, reserved, record)
}

fn with_views(first: &[[u8; 6]], second: &[[u8; 6]]) -> Vec<u8> {
    container_of(&EXAMPLE_FASCN, [0; 4], &record_of(first, second))
}

/// The good container of the worked cases, with two points and one. It has 155 bytes: BC stands at 3, its header at 6, its record
/// at 94, the minutiae of the first view at 124, the second view at 138, and FE at 153.
fn good() -> Vec<u8> {
    with_views(&[A, B], &[Z])
}

const GOOD_POINTS: [&[Point]; 2] = [&[POINT_A, POINT_B], &[POINT_Z]];

/// One of five lists with this length, and the others with that.
fn one_of_five(size: usize, others: usize) -> [[usize; 5]; 5] {
    [0, 1, 2, 3, 4].map(|which| {
        let mut sizes = [others; 5];
        sizes[which] = size;
        sizes
    })
}

// ---------------------------------------------------------------------------------------------
// Points

/// The worked cases of request 2026-10, in their order. A list of points there is five lists of its length here.
fn worked_lists() -> Group {
    let good = good();
    let (empty, broken) = (with_views(&[], &[]), with_views(&[[0xC0, 0x10, 0x3F, 0x22, 0x50, 0x32]], &[]));
    let face = case_of(7, &head_of([0x00, 0x1B, 0x05, 0x01], [0, 0, 2, 0x20]), &EXAMPLE_FASCN, [0; 4], b"X");
    let full: [&[u64]; 5] = [&[1, 2, 0], &[16, 16_383, 0], &[16_162, 16_383, 0], &[80, 179, 0], &[50, 100, 0]];
    (
        "the worked cases of 2026-10",
        vec![
            call(&good, [3; 5], Ok(([2, 1], full))),
            call(&good, [5; 5], Ok(([2, 1], full))),
            refused(&good, [2; 5], alone(3)),
            refused(&good, [0; 5], alone(3)),
            call(&empty, [0; 5], Ok(([0, 0], [&[][..]; 5]))),
            call(&empty, [1; 5], Ok(([0, 0], [&[0][..]; 5]))),
            refused(&broken, [0; 5], (22, 3, Some(0xBC))),
            refused(&broken, [1; 5], (22, 3, Some(0xBC))),
            refused(&face, [1; 5], (21, 2, Some(0xBC))),
            on(20260229, refused(&good, [1; 5], alone(2))),
            refused(&[], [1; 5], alone(10)),
            call(&good, [3, 4, 3, 5, 3], Ok(([2, 1], full))),
            refused(&good, [3, 4, 3, 5, 2], alone(3)),
        ],
    )
}

fn no_points() -> Group {
    let empty = with_views(&[], &[]);
    let sizes = [[0; 5], [1; 5], [256; 5], [0, 1, 2, 3, 4], [4, 3, 2, 1, 0]].into_iter().chain(one_of_five(0, 3));
    ("no points fit empty lists, and leave others zero", sizes.map(|sizes| filled(&empty, sizes, [&[], &[]])).collect())
}

fn order_of_views() -> Group {
    let split = |bytes: &[[u8; 6]], points: &[Point]| {
        let at = |count: usize| {
            let ((first, second), (one, other)) = (bytes.split_at(count), points.split_at(count));
            filled(&with_views(first, second), [bytes.len() + 1; 5], [one, other])
        };
        (0..=bytes.len()).map(at).collect::<Vec<_>>()
    };
    (
        "the first view's points stand before the second's, however many each has",
        [
            split(&[A], &[POINT_A]),
            split(&[A, B], &[POINT_A, POINT_B]),
            split(&[B, A], &[POINT_B, POINT_A]),
            split(&[Z, Z, A], &[POINT_Z, POINT_Z, POINT_A]),
            split(&[A, Z, B, A], &[POINT_A, POINT_Z, POINT_B, POINT_A]),
        ]
        .concat(),
    )
}

fn ends_of_numbers() -> Group {
    let both = |bytes, point| {
        [
            filled(&with_views(&[bytes], &[B]), [2; 5], [&[point], &[POINT_B]]),
            filled(&with_views(&[A], &[bytes]), [2; 5], [&[POINT_A], &[point]]),
        ]
    };
    (
        "each number of a point at its ends, in either view: no bit of it comes into another",
        [
            both([0x00, 0x00, 0x00, 0x00, 0, 0], point(0, 0, 0, 0, 0)),
            both([0x00, 0x01, 0x00, 0x00, 0, 0], point(0, 1, 0, 0, 0)),
            both([0x01, 0x00, 0x00, 0x00, 0, 0], point(0, 256, 0, 0, 0)),
            both([0x20, 0x00, 0x00, 0x00, 0, 0], point(0, 8_192, 0, 0, 0)),
            both([0x3F, 0xFF, 0x00, 0x00, 0, 0], point(0, 16_383, 0, 0, 0)),
            both([0x40, 0x00, 0x00, 0x00, 0, 0], point(1, 0, 0, 0, 0)),
            both([0x7F, 0xFF, 0x00, 0x00, 0, 0], point(1, 16_383, 0, 0, 0)),
            both([0x80, 0x00, 0x00, 0x00, 0, 0], point(2, 0, 0, 0, 0)),
            both([0xBF, 0xFF, 0x00, 0x00, 0, 0], point(2, 16_383, 0, 0, 0)),
            both([0x00, 0x00, 0x00, 0x01, 0, 0], point(0, 0, 1, 0, 0)),
            both([0x00, 0x00, 0x01, 0x00, 0, 0], point(0, 0, 256, 0, 0)),
            both([0x00, 0x00, 0x20, 0x00, 0, 0], point(0, 0, 8_192, 0, 0)),
            both([0x00, 0x00, 0x3F, 0xFF, 0, 0], point(0, 0, 16_383, 0, 0)),
            both([0x00, 0x00, 0x00, 0x00, 1, 0], point(0, 0, 0, 1, 0)),
            both([0x00, 0x00, 0x00, 0x00, 128, 0], point(0, 0, 0, 128, 0)),
            both([0x00, 0x00, 0x00, 0x00, 179, 0], point(0, 0, 0, 179, 0)),
            both([0x00, 0x00, 0x00, 0x00, 0, 1], point(0, 0, 0, 0, 1)),
            both([0x00, 0x00, 0x00, 0x00, 0, 100], point(0, 0, 0, 0, 100)),
        ]
        .concat(),
    )
}

fn most_points() -> Group {
    let all = some_points(256);
    let of = |first: usize, second: usize| [&all[..first], &all[256 - second..]];
    let filled_with = |views, sizes| filled(&card_of(views).container(), sizes, views);
    let most = card_of(of(128, 128)).container();
    let mut cases = vec![
        filled_with(of(128, 128), [256; 5]),
        filled_with(of(128, 128), [257; 5]),
        filled_with(of(128, 128), [256, 300, 257, 1_000, 256]),
        refused(&most, [255; 5], alone(3)),
        refused(&most, [0; 5], alone(3)),
        filled_with(of(128, 0), [128; 5]),
        refused(&card_of(of(128, 0)).container(), [127; 5], alone(3)),
        filled_with(of(0, 128), [128; 5]),
        refused(&card_of(of(0, 128)).container(), [127; 5], alone(3)),
        filled_with(of(127, 128), [256; 5]),
        filled_with(of(128, 127), [255; 5]),
    ];
    cases.extend(one_of_five(255, 256).map(|sizes| refused(&most, sizes, alone(3))));
    cases.extend(one_of_five(257, 256).map(|sizes| filled_with(of(128, 128), sizes)));
    ("128 points in each view, 128 in one alone, and 127 in one", cases)
}

// ---------------------------------------------------------------------------------------------
// Lists

fn one_too_short() -> Group {
    let good = good();
    let sizes = [(2, 3), (2, 9), (0, 3), (1, 256)].into_iter().flat_map(|(size, others)| one_of_five(size, others));
    (
        "one list is too short, whichever and however long the others are: all of them are zero",
        sizes.map(|sizes| refused(&good, sizes, alone(3))).collect(),
    )
}

fn just_long_enough() -> Group {
    let good = good();
    let one = [(3, 4), (3, 9), (4, 3), (256, 3)].into_iter().flat_map(|(size, others)| one_of_five(size, others));
    let each = [[3, 4, 5, 6, 7], [7, 6, 5, 4, 3], [256, 3, 257, 3, 4]];
    (
        "one list is just long enough, or longer than the others, or each is: zeros to its own end",
        one.chain(each).map(|sizes| filled(&good, sizes, GOOD_POINTS)).collect(),
    )
}

fn all_alike() -> Group {
    let good = good();
    let short = (0..3).map(|size| refused(&good, [size; 5], alone(3)));
    let long = [3, 4, 8, 255, 256, 257, 1_000].iter().map(|&size| filled(&good, [size; 5], GOOD_POINTS));
    ("lists of one length, from 0 on", short.chain(long).collect())
}

// ---------------------------------------------------------------------------------------------
// Records that are none

/// A refusal with lists that are too short, just long enough for these points, and longer.
fn refused_in_each(container: &[u8], points: usize, refusal: Verdict) -> [Case; 3] {
    [0, points, points + 2].map(|size| refused(container, [size; 5], refusal))
}

fn broken_points() -> Group {
    let broken = [
        [0xC0, 0x00, 0x00, 0x00, 0, 0],
        [0xFF, 0xFF, 0x00, 0x00, 0, 0],
        [0x00, 0x00, 0x40, 0x00, 0, 0],
        [0x00, 0x00, 0x80, 0x00, 0, 0],
        [0x00, 0x00, 0xFF, 0xFF, 0, 0],
        [0x00, 0x00, 0x00, 0x00, 180, 0],
        [0x00, 0x00, 0x00, 0x00, 255, 0],
        [0x00, 0x00, 0x00, 0x00, 0, 101],
        [0x00, 0x00, 0x00, 0x00, 0, 255],
    ];
    let each = broken.into_iter().flat_map(|bytes| {
        let views = [with_views(&[bytes, A], &[B]), with_views(&[A, bytes], &[B]), with_views(&[A, B], &[bytes])];
        views.map(|container| refused_in_each(&container, 3, at_3(22))).concat()
    });
    (
        "22: type 3, y over 16,383, angle 180, quality 101, in the first point and in the last: nothing of the others is left",
        each.collect(),
    )
}

fn points_too_many() -> Group {
    let points = some_points(257);
    let of = |first: usize, second: usize| card_of([&points[..first], &points[257 - second..]]).container();
    let each = [of(129, 0), of(0, 129), of(129, 128), of(128, 129)];
    let cases = each.iter().flat_map(|container| refused_in_each(container, 257, (22, 4, Some(0xBC))));
    ("129 points in a view, of which the record's length says so", cases.collect())
}

/// The record begins at 94: its length stands at 102, the counts at 123 and 141.
fn counts_and_lengths() -> Group {
    let good = good();
    let with = |at: usize, byte: u8| refused_in_each(&with_bytes(good.clone(), at, &[byte]), 3, at_3(22));
    (
        "counts that are not those of the points, and another length of the record",
        [
            with(123, 0),
            with(123, 1),
            with(123, 3),
            with(123, 129),
            with(123, 255),
            with(141, 0),
            with(141, 2),
            with(141, 128),
            with(102, 1),
            with(103, 55),
            with(103, 57),
            with(103, 62),
        ]
        .concat(),
    )
}

// ---------------------------------------------------------------------------------------------
// What the check says

fn check_first() -> Group {
    let good = good();
    let with = |at: usize, byte: u8| with_bytes(good.clone(), at, &[byte]);
    let without_end = [&[0x53, 0x81, 0x96], &good[3..153]].concat();
    let twice = [&[0x53, 0x82, 0x01, 0x2E], &good[3..153], &good[3..153], &[0xFE, 0]].concat();
    let each = [
        (with(0, 0x7E), alone(10)),
        (with(1, 0x80), alone(11)),
        (with(2, 0x97), alone(12)),
        ([&good[..], &[0]].concat(), alone(12)),
        (with(3, 0xBD), (13, 3, Some(0xBD))),
        (with(153, 0x00), (13, 153, Some(0x00))),
        (twice, (14, 154, Some(0xBC))),
        (vec![0x53, 2, 0xFE, 0], (15, 2, Some(0xFE))),
        (vec![0x53, 0], (15, 2, None)),
        (without_end, (15, 153, None)),
        (with(4, 0x85), at_3(11)),
        (with(5, 0xFF), at_3(12)),
        ([&[0x53, 91, 0xBC, 87], &good[6..93], &[0xFE, 0]].concat(), (16, 2, Some(0xBC))),
        ([&[0x53, 0x81, 0x99], &good[3..154], &[1, 0]].concat(), (16, 153, Some(0xFE))),
    ];
    (
        "10 to 16 of the check, with lists that are long enough and with empty ones: 3 comes after it",
        each.iter().flat_map(|(container, refusal)| refused_in_each(container, 3, *refusal)).collect(),
    )
}

fn headers_first() -> Group {
    let (record, mut broken) = (record_of(&[A, B], &[Z]), record_of(&[A, B], &[Z]));
    // the type of the first point
    broken[30] = 0xC0;
    let of = |fascn: &[u8; 25], reserved, record: &[u8], quality: u8, number| {
        let container = with_bytes(container_of(fascn, reserved, record), 46, &[quality]);
        refused_in_each(&container, 3, at_3(number))
    };
    let (right, wrong) = (EXAMPLE_FASCN, wrong_fascn());
    (
        "21 of a header's field, 17 and 21 of the reserved bytes, with a good record and with a broken one",
        [
            of(&right, [0; 4], &record, 101, 21),
            of(&wrong, [0; 4], &record, 100, 17),
            of(&right, [0, 0, 0, 1], &record, 100, 21),
            of(&right, [0; 4], &broken, 100, 22),
            of(&right, [0; 4], &broken, 101, 21),
            of(&wrong, [0; 4], &broken, 100, 17),
            of(&right, [0, 0, 0, 1], &broken, 100, 21),
            of(&wrong, [0, 0, 0, 1], &broken, 100, 17),
            of(&wrong, [0, 0, 0, 1], &broken, 101, 21),
        ]
        .concat(),
    )
}

/// The outer length is written in two to five bytes, and so BC stands at 3 to 6; its own length puts the points elsewhere.
fn in_longer_forms() -> Group {
    let points = [POINT_A, POINT_B, POINT_Z];
    let views = [&points[..2], &points[2..]];
    let type_3 = point(3, 16, 16_162, 80, 50);
    let (good, broken) = (card_of(views), card_of([&points[..2], &[type_3]]));
    let mut cases = Vec::new();
    for (outer, rows) in (0..LONGEST_FORM).flat_map(|outer| (0..LONGEST_FORM).map(move |rows| (outer, rows))) {
        let forms = Forms { outer: Form::Padded(outer), ..Forms::all(Form::Padded(rows)) };
        let place = 3 + outer.min(3) as u64;
        cases.push(filled(&good.container_in(&forms), [3; 5], views));
        cases.push(refused(&good.container_in(&forms), [2; 5], alone(3)));
        cases.push(refused(&broken.container_in(&forms), [3; 5], (22, place, Some(0xBC))));
    }
    ("lengths in every form: the same points, and the place is that of BC as it is given", cases)
}

fn days() -> Group {
    let (good, large) = (good(), vec![0; CONTAINER_MAX + 1]);
    let none = [0, 20260229, 20261301, 20260100, 10_100, 99991232, 100_000_101, u64::MAX, EXAMPLE_DAY + (1 << 32)];
    let none = none.into_iter().flat_map(|day| {
        let containers = [&good[..], &[], &large].into_iter();
        containers.flat_map(move |container| refused_in_each(container, 3, alone(2)).map(|case| on(day, case)))
    });
    let some = [10_101, 20240229, 99991231].map(|day| on(day, filled(&good, [3; 5], GOOD_POINTS)));
    ("2: a day that is none comes before all; on any other the points are the same", none.chain(some).collect())
}

fn no_container() -> Group {
    (
        "10 and 11: no container, and one of its tag alone",
        [refused_in_each(&[], 3, alone(10)), refused_in_each(&[0x53], 3, alone(11))].concat(),
    )
}

fn large_containers() -> Group {
    let views = [&[POINT_A, POINT_B][..], &[POINT_A]];
    // BC has four bytes before its value, and so has the container; FE has two
    let of = |total: usize| {
        let signature = total - 10 - 88 - 56;
        samples::fingers_with(100, &record_of(&[A, B], &[A]), signature).container()
    };
    let (largest, larger) = (of(CONTAINER_MAX), of(CONTAINER_MAX + 1));
    assert_eq!([largest.len(), larger.len()], [32_768, 32_769]);
    let mut cases = vec![filled(&largest, [3; 5], views), refused(&largest, [2; 5], alone(3))];
    cases.extend(refused_in_each(&larger, 3, alone(4)));
    cases.extend(refused_in_each(&vec![0; 32_769], 3, alone(4)));
    cases.extend(refused_in_each(&vec![0; 32_768], 3, alone(10)));
    ("a container of 32,768 bytes, and 4 for one of 32,769, whatever it holds", cases)
}

fn other_kinds() -> Group {
    let (first, second) = (point(1, 16, 32, 179, 100), [point(1, 16, 32, 179, 100); 5]);
    let told = |name: &str| match name {
        "fingers" | "fingers-signed" => CONFORMS,
        "fingers-broken" => at_3(22),
        "discovery" | "discovery-broken" => alone(10),
        "face" | "face-broken" | "face-signed" | "iris" | "iris-broken" => (21, 4, Some(0xBC)),
        "ccc" | "ccc-broken" => (13, 2, Some(0xF0)),
        "chuid" | "chuid-broken" => (13, 2, Some(0x30)),
        "chuid-longer" => (13, 5, Some(0x30)),
        "chuid-signed" => (13, 4, Some(0x30)),
        "printed" | "printed-broken" => (13, 2, Some(0x01)),
        "security" => (13, 3, Some(0xBA)),
        "security-broken" => (13, 2, Some(0xBA)),
        "pivauth" | "pivauth-broken" | "digsig" | "keymgmt" | "keymgmt-broken" => (13, 4, Some(0x70)),
        _ => (13, 2, Some(0x70)),
    };
    let each = samples::all().into_iter().flat_map(|sample| match told(sample.name) {
        CONFORMS => vec![filled(&sample.container, [8; 5], [&[first; 3], &second])],
        refusal => refused_in_each(&sample.container, 8, refusal).to_vec(),
    });
    ("the samples: a container of any other kind is judged as fingers", each.collect())
}
