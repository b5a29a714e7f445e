//! The proved library and the independent second program in one process: each call is made on both sides, and everything
//! that can be seen of it afterwards is compared. tests/second-program builds and runs this, and so do tests/worked-cases and
//! tests/certificates.
//!
//!     compare calls SEED COUNT        the named calls, COUNT made calls, and the sweeps of changed bytes and of smears
//!     compare strings SEED            both readers of FASC-N on the neighbours of P1 and on a million strings
//!     compare planted SEED            tries the comparison itself, with planted faults
//!     compare cases FOLDER FILE..     worked cases; what programs are tried with is put into the folder
//!     compare certificates FILE..     certificates in DER, as they are and damaged

use second::batch::{Answer, Call, Record, Tally};
use second::generate::{sweep, Inputs};
use second::named::{self, Case, SWEPT_SMEARS};
use std::process::exit;

mod cases;
mod certificates;
mod folder;
mod planted;
mod points;
#[path = "../../examples/rust/prosianek.rs"]
mod prosianek;
mod signer;
mod strings;
mod trial;

use trial::{call_text, Fault, Trial};

/// So many differences are shown.
const SHOWN: u64 = 5;

struct Comparison {
    trial: Trial,
    tally: Tally,
    calls: u64,
    differences: u64,
    /// So many of them are shown.
    shown: u64,
}

impl Comparison {
    fn new(seed: u64, shown: u64) -> Comparison {
        Comparison { trial: Trial::new(!seed), tally: Tally::default(), calls: 0, differences: 0, shown }
    }

    fn differs(&mut self, text: impl FnOnce(&Trial) -> String) {
        self.differences += 1;
        if self.differences <= self.shown {
            println!("{}", text(&self.trial));
        }
    }

    fn compare(&mut self, record: &Record, expected: &Answer) {
        self.calls += 1;
        match self.trial.run(record, expected, &Fault::None) {
            Ok(()) => self.tally.count(record.call, expected),
            Err(wrong) => self.differs(|trial| trial.tell(record, wrong)),
        }
        match record.call {
            Call::Lists => self.compare_points(record),
            Call::Signer => self.compare_signer(record, expected),
            Call::FascnDecode | Call::FascnDecodeByTable => self.compare_readers(record, expected),
            Call::Folder | Call::Row | Call::Last => self.compare_folder(record, expected),
            _ => (),
        }
    }

    /// The list of points has to be the same on both sides, too: one as long as the first of the five lists.
    fn compare_points(&mut self, record: &Record) {
        if let Some(told) = points::difference(record.today, &record.bytes, record.lists[0]) {
            self.differs(|_| format!("{}\n  {}", told, call_text(record)));
        }
    }

    /// The function for Rust has to tell the same of a signer, in its own words.
    fn compare_signer(&mut self, record: &Record, expected: &Answer) {
        if let Some(told) = signer::difference(record, expected) {
            self.differs(|_| format!("{}\n  {}", told, call_text(record)));
        }
    }

    /// So have the function for Rust of many FASC-N and the first reader of each of them; and that function of one.
    fn compare_readers(&mut self, record: &Record, expected: &Answer) {
        let told = match record.call {
            Call::FascnDecode => strings::difference_of_one(record, expected),
            _ => strings::difference(record, expected),
        };
        if let Some(told) = told {
            self.differs(|_| format!("{}\n  {}", told, call_text(record)));
        }
    }

    /// So have the functions for Rust of a folder, whose whole summary has to be the same, in whatever pieces it comes.
    fn compare_folder(&mut self, record: &Record, expected: &Answer) {
        if let Some(told) = folder::difference(record, expected) {
            self.differs(|_| format!("{}\n  {}", told, call_text(record)));
        }
    }

    /// Both programs have to answer as it is written out.
    fn compare_case(&mut self, name: &str, (record, expected): &Case) {
        let answer = record.answer();
        if answer != *expected {
            self.differs(|_| {
                let call = call_text(record);
                format!("the second program: {}\n  {}\n  expected {:?}\n  got      {:?}", name, call, expected, answer)
            });
        }
        self.compare(record, expected);
    }

    fn compare_named(&mut self) {
        for (name, cases) in named::all() {
            cases.iter().for_each(|case| self.compare_case(name, case));
        }
    }

    /// Both programs have to refuse each smear of a FASC-N as it is written out. One that is left out counts as a difference.
    fn compare_smears(&mut self, smears: impl Iterator<Item = Case>) {
        let before = self.calls;
        smears.for_each(|case| self.compare_case("a smear of a FASC-N", &case));
        let smears = self.calls - before;
        if smears != SWEPT_SMEARS {
            self.differs(|_| format!("{} smears were tried, of {}", smears, SWEPT_SMEARS));
        }
    }
}

/// Compares the calls, says how many, and gives whether there was no difference and every number was answered. One that is not
/// used counts as a difference, on whichever side it is.
fn all_same(seed: u64, count: u64) -> bool {
    let mut comparison = Comparison::new(seed, SHOWN);
    comparison.compare_named();
    let named = comparison.calls;
    let mut inputs = Inputs::new(seed);
    for _ in 0..count {
        let record = inputs.record();
        comparison.compare(&record, &record.answer());
    }
    sweep(|record| comparison.compare(record, &record.answer()));
    let changed = comparison.calls - named - count;
    comparison.compare_smears(named::swept_smears());
    let smears = comparison.calls - named - count - changed;

    let never = comparison.tally.never();
    print!("how often each number was answered, by call:\n{}", comparison.tally);
    for number in &never {
        println!("number {} never occurs", number);
    }
    let outcome = match comparison.differences {
        0 => "every answer, every byte of every room and all around it is as expected".to_string(),
        differences => format!("{} differ", differences),
    };
    println!("{} named calls, {} made ones, {} with a byte changed, {} smears", named, count, changed, smears);
    println!("{} calls, seed {}: {}", comparison.calls, seed, outcome);
    comparison.differences == 0 && never.is_empty()
}

fn number(text: &str) -> u64 {
    text.parse().unwrap_or_else(|_| {
        eprintln!("compare: not a number: {}", text);
        exit(2)
    })
}

fn main() {
    let arguments: Vec<String> = std::env::args().skip(1).collect();
    let arguments: Vec<&str> = arguments.iter().map(String::as_str).collect();
    let good = match arguments[..] {
        ["calls", seed, count] => all_same(number(seed), number(count)),
        ["strings", seed] => strings::all_agree(number(seed)),
        ["planted", seed] => planted::all_seen(number(seed)),
        ["cases", folder, ref files @ ..] => cases::all_hold(folder, files),
        ["certificates", ref files @ ..] => certificates::all_judged(files),
        _ => {
            eprintln!(
                "usage: compare calls SEED COUNT | strings SEED | planted SEED | cases FOLDER FILE.. | \
                 certificates FILE.."
            );
            exit(2)
        }
    };
    exit(i32::from(!good));
}
