//! Certificates in DER, as they come from files: they conform as each kind of certificate, and with damage of every sort they are
//! refused. Each kind has the lengths of its containers in another form, and those inside a certificate are in fewest bytes
//! always. tests/certificates makes the files.

use crate::trial::{Fault, Trial};
use second::batch::{Answer, Call, Record};
use second::card::{length_at, CONFORMS};
use second::generate::{certificate_kinds, plain, Form, Forms};
use second::samples::certificate;
use second::trees::Tree;
use second::values::CERTIFICATE_LEVELS;
use second::{number, Verdict, REPORT_MAX};

/// So many calls that answer something else are shown.
const SHOWN: usize = 5;

fn text((number, place, tag): Verdict) -> String {
    let tag = tag.map_or("--".to_string(), |tag| format!("{:02X}", tag));
    format!("{} {} {}", number, place, tag)
}

/// A container with this value of 70: the first kind has its lengths in fewest bytes, and each other a byte more than the one before.
fn container_of(kind: u64, value: &[u8]) -> Vec<u8> {
    let zeros = kind - certificate_kinds()[0];
    certificate(kind, value, 0, None).container_in(&Forms::all(Form::Padded(zeros as usize)))
}

struct Judging {
    trial: Trial,
    kinds: Vec<u64>,
    calls: usize,
    wrong: usize,
}

impl Judging {
    /// Makes a call on both sides. The verdict is as given, and all else is as the second program says.
    fn call(&mut self, what: &str, record: &Record, expected: Verdict) -> Answer {
        self.calls += 1;
        let answer = record.answer();
        let verdict = (answer.number, answer.place, answer.tag);
        let told = if verdict == expected {
            let outcome = self.trial.run(record, &answer, &Fault::None);
            outcome.err().map(|wrong| self.trial.tell(record, wrong))
        } else {
            Some(format!("the second program answers {}", text(verdict)))
        };
        if let Some(told) = told {
            self.wrong += 1;
            if self.wrong <= SHOWN {
                println!("{}, expected {}: {}", what, text(expected), told);
            }
        }
        answer
    }

    /// Checks a value of 70 in a container of each kind, without a room. A refusal names 70, and its place is where that stands,
    /// behind the outer length.
    fn check(&mut self, what: &str, value: &[u8], number: u64) {
        for kind in self.kinds.clone() {
            let record = given(Call::Check, kind, container_of(kind, value));
            let (_, taken) = length_at(&record.bytes[1..]).expect("an outer length");
            let broken = (number, 1 + taken as u64, Some(0x70));
            self.call(what, &record, if number == number::DONE { CONFORMS } else { broken });
        }
    }

    /// All calls on a certificate that conforms: its part is the certificate, and its sheet is written back in fewest bytes.
    fn conforms(&mut self, what: &str, value: &[u8]) {
        self.check(what, value, number::DONE);
        for kind in self.kinds.clone() {
            let (container, fewest) = (container_of(kind, value), certificate(kind, value, 0, None).container());
            let view = Record { element: 0x70, ..given(Call::View, kind, container.clone()) };
            assert_eq!(self.call(what, &view, CONFORMS).part, value, "{}: another part", what);
            let report = Record { room: REPORT_MAX, ..given(Call::Report, kind, container.clone()) };
            self.call(what, &report, CONFORMS);
            let check = Record { room: container.len() + 6, ..given(Call::Check, kind, container.clone()) };
            let answer = self.call(what, &check, CONFORMS);
            let sheet = answer.room[..answer.length as usize].to_vec();
            let write = Record { room: fewest.len(), ..given(Call::Write, kind, sheet) };
            assert_eq!(self.call(what, &write, CONFORMS).room, fewest, "{}: not written back", what);
        }
    }

    /// One byte taken out, wherever it is; cut off, wherever; and a byte behind, whichever.
    fn bytes(&mut self, what: &str, value: &[u8]) {
        for at in 0..value.len() {
            let without = [&value[..at], &value[at + 1..]].concat();
            self.check(&format!("{} without its byte {}", what, at), &without, number::DER);
            self.check(&format!("{} cut off at {}", what, at), &value[..at], number::DER);
        }
        for more in 0..=255 {
            self.check(&format!("{} with {:02X} behind", what, more), &[value, &[more]].concat(), number::DER);
        }
    }

    /// The length of each item in a longer form, with the lengths around it as they then should be.
    fn lengths(&mut self, what: &str, tree: &Tree) {
        for item in 0..tree.count() {
            for longer in tree.with_longer_length(item) {
                self.check(&format!("{} with a longer length at item {}", what, item), &longer, number::DER);
            }
        }
    }

    /// The certificate as a part of others, down to the last level and below it.
    fn levels(&mut self, what: &str, tree: &Tree) {
        let mut tree = tree.clone();
        while tree.levels() <= CERTIFICATE_LEVELS {
            self.check(&format!("{}, {} levels", what, tree.levels()), &tree.bytes(), number::DONE);
            tree = Tree::sequence(vec![Tree::empty(), tree, Tree::empty()]);
        }
        self.check(&format!("{}, {} levels", what, tree.levels()), &tree.bytes(), number::TOO_DEEP);
    }
}

fn given(call: Call, kind: u64, bytes: Vec<u8>) -> Record {
    Record { fill: 0xFF, ..plain(call, kind, bytes) }
}

/// Judges the certificate in each file, tells what is wrong, and gives whether nothing is.
pub fn all_judged(files: &[&str]) -> bool {
    let mut judging = Judging { trial: Trial::new(70), kinds: certificate_kinds(), calls: 0, wrong: 0 };
    for file in files {
        let value = std::fs::read(file).unwrap_or_else(|error| panic!("{}: {}", file, error));
        let tree = Tree::of(&value, CERTIFICATE_LEVELS).unwrap_or_else(|| panic!("{} is no DER item", file));
        judging.conforms(file, &value);
        judging.bytes(file, &value);
        judging.lengths(file, &tree);
        judging.levels(file, &tree);
        println!("{}: {} bytes, {} items, {} levels", file, value.len(), tree.count(), tree.levels());
    }
    let Judging { kinds, calls, wrong, .. } = judging;
    println!("{} certificates as {} kinds: {} calls, {} wrong", files.len(), kinds.len(), calls, wrong);
    wrong == 0 && !files.is_empty() && kinds.len() == 4
}
