//! The independent second program: it checks PIV data containers, gives their value sheets, writes, views and reports them, fills
//! lists with the points of fingers, finds the certificate of who signed a biometric, sums up a folder of containers, and decodes
//! FASC-N, one or many.
//!
//! It is written from the scope page (01), the change requests (02) and the list of decided points
//! alone, and serves as the partner that the proved program is compared with, and as the speed baseline.

pub mod batch;
pub mod blocks;
pub mod card;
pub mod dates;
pub mod der;
pub mod faces;
pub mod faults;
pub mod fingers;
pub mod folder;
pub mod folders;
pub mod generate;
pub mod irises;
pub mod lengths;
pub mod longest;
pub mod named;
mod page;
pub mod pairs;
pub mod points;
pub mod records;
pub mod report;
pub mod samples;
pub mod signer;
pub mod smears;
pub mod strings;
pub mod trees;
pub mod values;

pub use card::{check, view, write, Checked, Verdict};
pub use folder::{folder, last, row, Seen};
pub use points::{lists, points, Point};
pub use report::{desk, report};
pub use signer::{signer, Which};
pub use values::{fascn_decode, fascn_decode_many, fascn_encode, Decoded};

/// The numbers of 01's table.
pub mod number {
    pub const DONE: u64 = 0;
    pub const KIND: u64 = 1;
    pub const TODAY: u64 = 2;
    pub const ROOM: u64 = 3;
    pub const TOO_LONG: u64 = 4;
    pub const SHEET: u64 = 5;
    pub const NO_ELEMENT: u64 = 6;
    pub const DIGITS: u64 = 7;
    // 8 was a report over 512 bytes: 2026-12 withdrew it, since there is none. 9 was never given by 01. Neither is used again.
    pub const OUTER_TAG: u64 = 10;
    pub const LENGTH_FORM: u64 = 11;
    pub const PAST_END: u64 = 12;
    pub const UNKNOWN_TAG: u64 = 13;
    pub const ORDER: u64 = 14;
    pub const MISSING: u64 = 15;
    pub const ELEMENT_LENGTH: u64 = 16;
    pub const FASCN: u64 = 17;
    pub const UUID: u64 = 18;
    pub const DATE: u64 = 19;
    pub const FIXED: u64 = 20;
    pub const HEADER: u64 = 21;
    pub const MINUTIAE: u64 = 22;
    pub const TEXT: u64 = 23;
    pub const DER: u64 = 24;
    pub const TOO_DEEP: u64 = 25;
    pub const FACE_RECORD: u64 = 26;
    pub const IRIS_RECORD: u64 = 27;
    pub const FASCN_DIFFER: u64 = 28;
    pub const BIOMETRIC_BLOCK: u64 = 29;
    pub const CHUID_BLOCK: u64 = 30;
    pub const NEITHER_HOLDS: u64 = 31;
    pub const FOLDER: u64 = 32;

    /// The last of them that a check answers: those behind it are of the two containers that a signer is found with, and of a folder.
    pub const LAST_OF_CHECK: u64 = IRIS_RECORD;

    /// The last of them.
    pub const LAST: u64 = FOLDER;

    /// The two below the last that no call answers.
    pub const UNUSED: [u64; 2] = [8, 9];

    /// Whether a call may answer the number.
    pub fn is_used(number: u64) -> bool {
        number <= LAST && !UNUSED.contains(&number)
    }
}

/// A container has at most this many bytes.
pub const CONTAINER_MAX: usize = 32_768;
/// A room of this many bytes holds the sheet of any container. A sheet has at most two bytes more for each absent element, of which
/// no kind has over four, and two bytes at least of a container lie outside of its elements.
pub const SHEET_ROOM: usize = CONTAINER_MAX + 6;
/// A report asks for a room of at least this many bytes, which holds any: [`report::LONGEST`] has the longest of each kind.
pub const REPORT_MAX: usize = 512;

/// What no tag is as a number, where callers of other languages get the tag of a verdict as one. A tag has one byte or two, and
/// is never that large; 00 is a tag.
pub const NO_TAG: u64 = 65_536;

/// A verdict's tag as such a number.
pub fn tag_number(tag: Option<u16>) -> u64 {
    tag.map_or(NO_TAG, u64::from)
}
