//! Containers that conform with lengths in longer forms than they need, and others that are as good but for one thing: the calls
//! on them with every sort of room, the largest of them, and outer lengths and certificates at their edges.

use crate::batch::{Call, Record};
use crate::card::{self, all_kinds};
use crate::generate::{
    certificate_card, certificate_kinds, conforming_of_size, conforming_on, endless_kinds, lengthened, plain,
    put_length,
};
use crate::generate::{Card, Form, Forms, Rng, EXAMPLE_DAY, LONGEST_FORM};
use crate::{trees, CONTAINER_MAX, REPORT_MAX};

pub fn records() -> Vec<Record> {
    let mut out = Vec::new();
    for kind in all_kinds() {
        out.extend(mixed_forms(kind));
        out.extend(outer_lengths(kind));
    }
    out.extend(largest());
    out.extend(certificates());
    out
}

/// The outer length with so many zeros in front, and those of the elements with so many.
fn padded(outer: usize, rows: usize) -> Forms {
    Forms { outer: Form::Padded(outer), ..Forms::all(Form::Padded(rows)) }
}

/// Every call on a card in these forms: checks with rooms at their edges, a view of every row, a report, and the sheet written
/// back into rooms that are as long as the container in fewest bytes, as the one that was given, and a byte too short.
fn calls(card: &Card, forms: &Forms) -> Vec<Record> {
    let (kind, today) = (card.kind, card.today);
    let (given, sheet) = (card.container_in(forms), card.sheet());
    let fewest = card.container().len();
    let call = |call, bytes: &[u8]| Record { today, ..plain(call, kind, bytes.to_vec()) };
    let with_room = |record: Record, room| Record { room, fill: 0xA5, ..record };
    let checks = [0, sheet.len() - 1, sheet.len(), given.len() + 6];
    let writes = [fewest - 1, fewest, given.len()];
    let rows = card::kind_of(kind).map_or(&[][..], |kind| kind.rows);
    let mut out: Vec<_> = checks.map(|room| with_room(call(Call::Check, &given), room)).to_vec();
    out.extend(rows.iter().map(|row| Record { element: u64::from(row.tag), ..call(Call::View, &given) }));
    out.push(with_room(call(Call::Report, &given), REPORT_MAX));
    out.extend(writes.map(|room| with_room(call(Call::Write, &sheet), room)));
    out
}

/// A card whose long row has 200 bytes, or as many as it may, in every pair of an outer form and one for all elements.
fn mixed_forms(kind: u64) -> Vec<Record> {
    let mut rng = Rng::new(kind);
    let card = conforming_on(&mut rng, kind, EXAMPLE_DAY);
    let card = lengthened(&mut rng, card, 200);
    let pairs = (0..LONGEST_FORM).flat_map(|outer| (0..LONGEST_FORM).map(move |rows| padded(outer, rows)));
    pairs.flat_map(|forms| calls(&card, &forms)).collect()
}

/// Outer lengths at which the form changes, in every form, right and wrong: one off, and right in so many bits only. The first tag
/// behind them is none, so that a good one is told by the place of that.
fn outer_lengths(kind: u64) -> Vec<Record> {
    let outer = card::kind_of(kind).expect("a kind").outer;
    let mut out = Vec::new();
    for length in [1, 126, 127, 128, 129, 255, 256, 257] {
        for form in [Form::Short, Form::Long(1), Form::Long(2), Form::Long(3), Form::Long(4), Form::Long(5)] {
            for more in [0, -1, 1, 256, 65_536] {
                let mut bytes = vec![outer];
                put_length(&mut bytes, length, more, form);
                bytes.extend(vec![0; length]);
                out.push(plain(Call::Check, kind, bytes));
            }
        }
    }
    out
}

/// Containers that have 32,768 bytes as they are given, or 32,769, in longer forms: they would have less in fewest bytes.
fn largest() -> Vec<Record> {
    let mut rng = Rng::new(CONTAINER_MAX as u64);
    let mut out = Vec::new();
    for kind in endless_kinds() {
        for (outer, rows) in [(0, 2), (1, 0), (1, 1), (2, 2)] {
            for total in [CONTAINER_MAX, CONTAINER_MAX + 1] {
                let forms = padded(outer, rows);
                out.extend(calls(&conforming_of_size(&mut rng, kind, total, &forms), &forms));
            }
        }
    }
    out
}

/// Values of 70 at every edge of DER, which keeps the fewest bytes, in containers in longer forms.
fn certificates() -> Vec<Record> {
    let kinds = certificate_kinds();
    let mut out = Vec::new();
    for (i, certificate) in trees::edges().into_iter().enumerate() {
        let kind = kinds[i % kinds.len()];
        let card = certificate_card(kind, certificate, None);
        let container = card.container_in(&padded(1 + i % 3, 1 + i / 3 % 3));
        out.push(Record { room: card.sheet().len(), fill: 0xA5, ..plain(Call::Check, kind, container) });
    }
    out
}
