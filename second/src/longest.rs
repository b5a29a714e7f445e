//! Containers with the longest reports: of each kind one whose report is as long as any, and others near it, with a row that
//! is shorter or absent and around each length at which the number of digits changes; good ones, damaged ones, and those whose
//! fault stands as far behind as it can. The reports on them are made in every run, with rooms at their edge.

use crate::batch::{Call, Record};
use crate::card::{self, all_kinds, length_at, Row, Rule};
use crate::generate::{conforming_on, plain, put_length, value_of};
use crate::generate::{Card, Form, Forms, Rng, EXAMPLE_DAY, LONGEST_FORM};
use crate::{CONTAINER_MAX, REPORT_MAX};

/// Rooms at the edge: too small by a byte, just enough, and a byte more.
pub const ROOMS: [usize; 3] = [REPORT_MAX - 1, REPORT_MAX, REPORT_MAX + 1];

/// Lengths of elements at which the number of digits changes.
const DIGITS_CHANGE: [usize; 10] = [0, 1, 9, 10, 99, 100, 999, 1_000, 9_999, 10_000];

/// Lengths of containers at which it does, the most bytes that there may be, and one byte more.
pub const TOTALS: [usize; 8] = [99, 100, 999, 1_000, 9_999, 10_000, CONTAINER_MAX, CONTAINER_MAX + 1];

/// The reports, each into the three rooms.
pub fn records() -> Vec<Record> {
    let mut out = Vec::new();
    for kind in all_kinds() {
        let mut rng = Rng::new(kind);
        let whole = whole_on(&mut rng, kind, EXAMPLE_DAY, 10_000);
        let cards =
            [vec![whole.clone()], other_lengths(&mut rng, &whole), without_one(&whole), of_totals(&mut rng, &whole)];
        let mut containers: Vec<_> = cards.concat().iter().map(Card::container).collect();
        containers.extend((1..LONGEST_FORM).map(|zeros| whole.container_in(&Forms::all(Form::Padded(zeros)))));
        containers.extend(damaged(&whole.container()));
        containers.extend(TOTALS.map(|total| filled_up(&whole.container(), kind, total)));
        containers.extend(TOTALS.map(|total| filled_up(&without_end(&whole).container(), kind, total)));
        for bytes in containers {
            out.extend(ROOMS.map(|room| Record { room, fill: 0xA5, ..plain(Call::Report, kind, bytes.clone()) }));
        }
    }
    out
}

// ---------------------------------------------------------------------------------------------
// Cards with every row

/// A value of so many bytes for a row that permits several lengths; none for other rows, and where none has that length.
fn value(rng: &mut Rng, row: &Row, length: usize) -> Option<Vec<u8>> {
    match row.rule {
        _ if !row.permits(length) => None,
        Rule::Text => Some(rng.text(length)),
        Rule::Any | Rule::Fingers | Rule::Face | Rule::Iris | Rule::Certificate => value_of(rng, row.rule, length),
        _ => None,
    }
}

fn table(card: &Card) -> &'static [Row] {
    card::kind_of(card.kind).expect("a card has a kind").rows
}

/// Gives each row the most bytes that it may have, and so many to one that has no longest value.
fn lengthen_all(rng: &mut Rng, card: &mut Card, endless: usize) {
    for (row, slot) in table(card).iter().zip(&mut card.rows) {
        let length = if row.longest > CONTAINER_MAX { endless } else { row.longest };
        if let Some(longest) = value(rng, row, length) {
            *slot = Some(longest);
        }
    }
}

/// A conforming card with every row, each as long as it may be. One that has no longest value has so many bytes.
fn whole_on(rng: &mut Rng, kind: u64, today: u64, endless: usize) -> Card {
    loop {
        let mut card = conforming_on(rng, kind, today);
        if card.rows.iter().all(Option::is_some) {
            lengthen_all(rng, &mut card, endless);
            return card;
        }
    }
}

/// Such a card; at times a row of it is shorter, by a byte or down to where it has fewer digits, or absent.
pub fn nearly_longest(rng: &mut Rng, kind: u64, today: u64) -> Card {
    let endless = match rng.below(8) {
        0 => rng.size(32_600, 32_700),
        1 => rng.size(9_800, 10_200),
        2 => rng.size(900, 1_100),
        _ => rng.pick(&[9_999, 10_000]),
    };
    let mut card = whole_on(rng, kind, today, endless);
    if rng.one_in(2) {
        let at = rng.below(card.rows.len() as u64) as usize;
        let row = &table(&card)[at];
        let length = card.rows[at].as_ref().map_or(0, Vec::len);
        let other = if rng.one_in(2) { length.saturating_sub(1) } else { rng.pick(&DIGITS_CHANGE) };
        match value(rng, row, other) {
            Some(value) => card.rows[at] = Some(value),
            None if row.optional => card.rows[at] = None,
            None => (),
        }
    }
    card
}

// ---------------------------------------------------------------------------------------------
// The cards beside one

/// With one row of another length: a byte less than it may have, and wherever the number of digits changes.
fn other_lengths(rng: &mut Rng, whole: &Card) -> Vec<Card> {
    let mut out = Vec::new();
    for (at, row) in table(whole).iter().enumerate() {
        // a row without a longest value has 10,000 bytes, and a byte less is among the others
        let lengths = DIGITS_CHANGE.into_iter().chain([row.longest.saturating_sub(1)]);
        for length in lengths.filter(|&length| length < CONTAINER_MAX) {
            if let Some(value) = value(rng, row, length) {
                let mut card = whole.clone();
                card.rows[at] = Some(value);
                out.push(card);
            }
        }
    }
    out
}

/// Without one of the optional rows, and without any.
fn without_one(whole: &Card) -> Vec<Card> {
    let optional: Vec<_> = table(whole).iter().enumerate().filter(|(_, row)| row.optional).map(|(at, _)| at).collect();
    let without = |rows: &[usize]| {
        let mut card = whole.clone();
        rows.iter().for_each(|&at| card.rows[at] = None);
        card
    };
    let each = optional.iter().map(|&at| without(&[at]));
    each.chain([without(&optional)]).collect()
}

/// Without its last row, so that what is missing is missing at the end.
fn without_end(whole: &Card) -> Card {
    let mut card = whole.clone();
    card.rows.pop();
    card
}

/// Containers of these lengths, as far as the kind's longest row allows, with all other rows and without the optional ones.
fn of_totals(rng: &mut Rng, whole: &Card) -> Vec<Card> {
    let without_any = without_one(whole).pop().expect("one without any");
    let longest = table(whole).iter().enumerate().max_by_key(|(_, row)| row.longest).map_or(0, |(at, _)| at);
    let mut out = Vec::new();
    for card in [whole, &without_any] {
        for total in TOTALS {
            out.extend(of_total(rng, card, longest, total));
        }
    }
    out
}

/// The card with a container of so many bytes, by the length of this row.
fn of_total(rng: &mut Rng, card: &Card, at: usize, total: usize) -> Option<Card> {
    let mut card = card.clone();
    // as many bytes as there are in all are too many, by those that tags and lengths take and other values
    let mut length = total;
    for _ in 0..2 {
        card.rows[at] = Some(vec![0; length]);
        length = (length + total).checked_sub(card.container().len())?;
    }
    card.rows[at] = Some(value(rng, &table(&card)[at], length)?);
    Some(card).filter(|card| card.container().len() == total)
}

// ---------------------------------------------------------------------------------------------
// Damage

/// With another byte at its front, in its middle or at its end, or cut short.
fn damaged(container: &[u8]) -> Vec<Vec<u8>> {
    let end = container.len();
    let changed = |at: usize| {
        let mut other = container.to_vec();
        other[at] ^= 1;
        other
    };
    let places = [0, 1, 2, 3, 4, 5, 6, 10, end / 2, end - 5, end - 4, end - 3, end - 2, end - 1];
    let ends = [0, 1, 2, 3, end / 2, end - 3, end - 2, end - 1];
    places.into_iter().map(changed).chain(ends.map(|end| container[..end].to_vec())).collect()
}

/// The container with so many bytes, where it has fewer, and with the outer length that goes with them. Behind its elements
/// stand bytes that are no tag, or those of the tag of two bytes, which is there a second time.
pub fn filled_up(container: &[u8], kind: u64, total: usize) -> Vec<u8> {
    let start = match container.get(1..).and_then(length_at) {
        Some((_, taken)) => 1 + taken,
        None => return container.to_vec(),
    };
    let elements = &container[start..];
    // the tag and the outer length, which takes one byte or three: no total lies between
    let front = if total > 127 { 4 } else { 2 };
    if elements.len() + front >= total {
        return container.to_vec();
    }
    let filling: &[u8] = if kind == 3 { &[0x5F, 0x2F] } else { &[0x00] };
    let mut out = vec![container[0]];
    put_length(&mut out, total - front, 0, Form::Fewest);
    out.extend(elements);
    out.extend(filling.iter().cycle().take(total - out.len()));
    out
}
