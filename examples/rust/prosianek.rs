//! The thirteen calls of Prosianek for Rust: safe functions over include/prosianek.h, which says more of each. To use them in a
//! project of your own, copy this file, and give rustc the folder of libprosianek.a (`-L native=FOLDER`).
//!
//! What C callers have to see to, Rust's references bring: they are valid and never null, and what is lent for writing
//! overlaps nothing. So nothing is asked of a caller here, and every input gets an answer.
#![allow(dead_code)]

/// The kinds of container. The calls take any number as a kind and refuse every other with 1.
pub const CCC: u64 = 1;
pub const CHUID: u64 = 2;
pub const DISCOVERY: u64 = 3;
pub const PRINTED: u64 = 4;
pub const SECURITY: u64 = 5;
pub const FINGERS: u64 = 6;
pub const FACE: u64 = 7;
pub const PIVAUTH: u64 = 8;
pub const DIGSIG: u64 = 9;
pub const KEYMGMT: u64 = 10;
pub const CARDAUTH: u64 = 11;
pub const IRIS: u64 = 12;

/// The smallest room for a report, which holds every one: the longest there is has 171 bytes.
pub const REPORT_ROOM: usize = 512;
/// The bytes of a FASC-N.
pub const FASCN_BYTES: usize = 25;
/// The bytes of the largest container.
pub const LARGEST_CONTAINER: usize = 32_768;
/// A room of this size holds the sheet of any container.
pub const SHEET_ROOM: usize = 32_774;
/// A list of this many points holds those of any container.
pub const MOST_POINTS: usize = 256;
/// The most containers that a folder has.
pub const MOST_CONTAINERS: usize = 256;
/// The smallest room for a row of a folder's summary and for its two last lines, which holds any of them.
pub const ROW_ROOM: usize = 64;
/// What prosianek_check, prosianek_write, prosianek_view, prosianek_lists and prosianek_signer write for no tag, which no tag can
/// be. Refused has None for it.
pub const NO_TAG: u64 = 65_536;

/// A refusal: its number, as include/prosianek.h lists them, the place of the first broken rule, and the tag of the element
/// that is meant, such as 0x30 or 0x5F2F. The header says which numbers carry a tag.
#[derive(Clone, Copy, Debug, PartialEq, Eq)]
pub struct Refused {
    pub number: u64,
    pub place: u64,
    pub tag: Option<u64>,
}

/// A point (minutia) of a finger: its type, 0 to 2, where it is, 0 to 16,383 each, its angle, 0 to 179, as the card has it, and
/// its quality, 0 to 100. The default has zeros alone, as an entry behind the last point has.
#[derive(Clone, Copy, Debug, Default, PartialEq, Eq)]
pub struct Point {
    pub sort: u64,
    pub x: u64,
    pub y: u64,
    pub angle: u64,
    pub quality: u64,
}

/// What decode_by_table says of one FASC-N: the number is 0, and the numbers are the nine, in decode's order; or it is 17, and the
/// nine are 0. The default has zeros alone, as an entry behind the last FASC-N has, and that of a FASC-N whose nine numbers are 0.
#[repr(C)]
#[derive(Clone, Copy, Default, PartialEq, Eq, Debug)]
pub struct Decoded {
    pub number: u64,
    pub numbers: [u64; 9],
}

/// One of the two containers that signer is given.
#[derive(Clone, Copy, Debug, PartialEq, Eq)]
pub enum Which {
    Chuid,
    Biometric,
}

/// How far a folder was gone over. The default is for the first piece.
#[derive(Clone, Copy, Debug, Default, PartialEq, Eq)]
pub struct State([u64; 3]);

/// What the rows of a folder's summary have found so far: how many containers conform; 0 where no FASC-N was seen in these, 1
/// where all that were seen are alike, and any other number where they differ; and the first of them, which is personal. The
/// default is for the first row.
#[derive(Clone, Copy, Debug, Default, PartialEq, Eq)]
pub struct Tally {
    pub good: u64,
    pub agreement: u64,
    pub fascn: [u8; FASCN_BYTES],
}

/// A row that was written: its length with its line feed, and the tally for the next row.
#[derive(Clone, Copy, Debug, PartialEq, Eq)]
pub struct Row {
    pub length: usize,
    pub tally: Tally,
}

// The functions themselves, as the header declares them.
#[link(name = "prosianek", kind = "static")]
extern "C" {
    pub fn prosianek_check(
        kind: u64,
        today: u64,
        container: *const u8,
        size: usize,
        sheet: *mut u8,
        sheet_size: usize,
        place: *mut u64,
        tag: *mut u64,
        room: *mut u64,
        length: *mut u64,
    ) -> u64;
    pub fn prosianek_write(
        kind: u64,
        today: u64,
        sheet: *const u8,
        size: usize,
        container: *mut u8,
        room: usize,
        place: *mut u64,
        tag: *mut u64,
        length: *mut u64,
    ) -> u64;
    pub fn prosianek_view(
        kind: u64,
        today: u64,
        container: *const u8,
        size: usize,
        element: u64,
        place: *mut u64,
        tag: *mut u64,
        offset: *mut u64,
        length: *mut u64,
    ) -> u64;
    pub fn prosianek_report(
        kind: u64,
        today: u64,
        container: *const u8,
        size: usize,
        room: *mut u8,
        room_size: usize,
        length: *mut u64,
    ) -> u64;
    pub fn prosianek_lists(
        today: u64,
        container: *const u8,
        size: usize,
        types: *mut u64,
        types_size: usize,
        xs: *mut u64,
        xs_size: usize,
        ys: *mut u64,
        ys_size: usize,
        angles: *mut u64,
        angles_size: usize,
        qualities: *mut u64,
        qualities_size: usize,
        place: *mut u64,
        tag: *mut u64,
        first: *mut u64,
        second: *mut u64,
    ) -> u64;
    pub fn prosianek_signer(
        kind: u64,
        today: u64,
        chuid: *const u8,
        chuid_size: usize,
        biometric: *const u8,
        biometric_size: usize,
        place: *mut u64,
        tag: *mut u64,
        which: *mut u64,
        offset: *mut u64,
        length: *mut u64,
    ) -> u64;
    pub fn prosianek_fascn_decode(bytes: *const u8, size: usize, numbers: *mut [u64; 9]) -> u64;
    pub fn prosianek_fascn_decode_by_table(
        strings: *const u8,
        strings_size: usize,
        list: *mut Decoded,
        list_size: usize,
    ) -> u64;
    pub fn prosianek_fascn_encode(numbers: *const [u64; 9], room: *mut u8, size: usize) -> u64;
    pub fn prosianek_folder_step(state: *mut [u64; 3], piece: *const u8, piece_length: usize);
    pub fn prosianek_folder_end(today: u64, state: *const [u64; 3]) -> u64;
    pub fn prosianek_row(
        today: u64,
        kind: u8,
        offset: u64,
        size: u64,
        container: *const u8,
        container_length: usize,
        good: *mut u64,
        agreement: *mut u64,
        fascn: *mut [u8; FASCN_BYTES],
        room: *mut u8,
        room_length: usize,
        length: *mut u64,
    ) -> u64;
    pub fn prosianek_last(
        good: u64,
        agreement: u64,
        room: *mut u8,
        room_length: usize,
        length: *mut u64,
    ) -> u64;
}

// In each unsafe block below: every pointer with its size is that of a slice, or of an array of this function that is at least
// so long, every other pointer that of a number or an array of this function, and the exclusive references are distinct.

fn answer<T>(number: u64, place: u64, tag: u64, value: T) -> Result<T, Refused> {
    if number == 0 {
        Ok(value)
    } else {
        let tag = (tag != NO_TAG).then(|| tag);
        Err(Refused { number, place, tag })
    }
}

/// Whether a container conforms, or the first broken rule. The value sheet of one that conforms is written into the room, and
/// its length is given; or none, where the room is under that length (the 3 beside a verdict of 0). So an empty room asks for
/// the verdict alone. Zeros follow a sheet, and where none is written the room is all zeros; so it is, on a success and on a
/// refusal, in all calls that are lent a room.
pub fn check(
    kind: u64,
    today: u64,
    container: &[u8],
    sheet: &mut [u8],
) -> Result<Option<usize>, Refused> {
    let (mut place, mut tag, mut room, mut length) = (0, 0, 0, 0);
    let number = unsafe {
        prosianek_check(
            kind,
            today,
            container.as_ptr(),
            container.len(),
            sheet.as_mut_ptr(),
            sheet.len(),
            &mut place,
            &mut tag,
            &mut room,
            &mut length,
        )
    };
    answer(number, place, tag, (room == 0).then(|| length as usize))
}

/// Writes the container of a value sheet into the room and gives its length. A refusal's place is that of the row's count in
/// the sheet, and its tag is the row's.
pub fn write(kind: u64, today: u64, sheet: &[u8], container: &mut [u8]) -> Result<usize, Refused> {
    let (mut place, mut tag, mut length) = (0, 0, 0);
    let number = unsafe {
        prosianek_write(
            kind,
            today,
            sheet.as_ptr(),
            sheet.len(),
            container.as_mut_ptr(),
            container.len(),
            &mut place,
            &mut tag,
            &mut length,
        )
    };
    answer(number, place, tag, length as usize)
}

/// Where the value of the element with the tag `element` stands in a container that conforms. The range lies within the
/// container, so that `&container[range]` is the value. A refusal is that of check, with its tag, or 6, which has none.
pub fn view(
    kind: u64,
    today: u64,
    container: &[u8],
    element: u64,
) -> Result<std::ops::Range<usize>, Refused> {
    let (mut place, mut tag, mut offset, mut length) = (0, 0, 0, 0);
    let number = unsafe {
        prosianek_view(
            kind,
            today,
            container.as_ptr(),
            container.len(),
            element,
            &mut place,
            &mut tag,
            &mut offset,
            &mut length,
        )
    };
    answer(
        number,
        place,
        tag,
        offset as usize..(offset + length) as usize,
    )
}

/// Writes the desk report of a container into the room and gives its length. A container that breaks a rule gets a report,
/// too; a refusal's place is 0, and it has no tag.
pub fn report(kind: u64, today: u64, container: &[u8], room: &mut [u8]) -> Result<usize, Refused> {
    let mut length = 0;
    let number = unsafe {
        prosianek_report(
            kind,
            today,
            container.as_ptr(),
            container.len(),
            room.as_mut_ptr(),
            room.len(),
            &mut length,
        )
    };
    answer(number, 0, NO_TAG, length as usize)
}

/// Fills the list with the points of a FINGERS container that conforms, the first view's and then the second's, and gives how
/// many the first view has, and the second. Entries behind the last are all zero, and so is the whole list on a refusal: that
/// of check as FINGERS, or then 3 for a list that is shorter than both counts together. A list of MOST_POINTS is always long
/// enough. The points are personal, and no report has them.
pub fn points(today: u64, container: &[u8], list: &mut [Point]) -> Result<(usize, usize), Refused> {
    // No container has more points, so that a longer list needs no longer lists here.
    let size = list.len().min(MOST_POINTS);
    let mut lists = [[0; MOST_POINTS]; 5];
    let [types, xs, ys, angles, qualities] = &mut lists;
    let (mut place, mut tag, mut first, mut second) = (0, 0, 0, 0);
    let number = unsafe {
        prosianek_lists(
            today,
            container.as_ptr(),
            container.len(),
            types.as_mut_ptr(),
            size,
            xs.as_mut_ptr(),
            size,
            ys.as_mut_ptr(),
            size,
            angles.as_mut_ptr(),
            size,
            qualities.as_mut_ptr(),
            size,
            &mut place,
            &mut tag,
            &mut first,
            &mut second,
        )
    };
    list.fill(Point::default());
    for (i, point) in list.iter_mut().take(size).enumerate() {
        *point = Point {
            sort: types[i],
            x: xs[i],
            y: ys[i],
            angle: angles[i],
            quality: qualities[i],
        };
    }
    answer(number, place, tag, (first as usize, second as usize))
}

/// The certificate of who signed a biometric (kind FINGERS, FACE or IRIS), from its own signature block or, where that holds
/// none, from the CHUID's: which of the two containers it lies in, and where it stands there, so that `&chuid[range]` or
/// `&biometric[range]` is the certificate, with its tag and length. A refusal says which container it is about where it is that of
/// a check; the header has the others in their order, 1 and 28 to 31, which are about neither.
pub fn signer(
    kind: u64,
    today: u64,
    chuid: &[u8],
    biometric: &[u8],
) -> Result<(Which, std::ops::Range<usize>), (Option<Which>, Refused)> {
    let (mut place, mut tag, mut which, mut offset, mut length) = (0, 0, 0, 0, 0);
    let number = unsafe {
        prosianek_signer(
            kind,
            today,
            chuid.as_ptr(),
            chuid.len(),
            biometric.as_ptr(),
            biometric.len(),
            &mut place,
            &mut tag,
            &mut which,
            &mut offset,
            &mut length,
        )
    };
    let range = offset as usize..(offset + length) as usize;
    match (which, answer(number, place, tag, range)) {
        (1, Ok(range)) => Ok((Which::Chuid, range)),
        // 2: there is no certificate that is in neither
        (_, Ok(range)) => Ok((Which::Biometric, range)),
        (1, Err(refused)) => Err((Some(Which::Chuid), refused)),
        (2, Err(refused)) => Err((Some(Which::Biometric), refused)),
        (_, Err(refused)) => Err((None, refused)),
    }
}

/// The nine numbers of a FASC-N: agency, system, credential, series, issue, person, category, organisation, association. One in
/// which one or more bits were changed, all within six neighbouring bits of the 200, is always refused.
pub fn decode(bytes: &[u8]) -> Result<[u64; 9], Refused> {
    let mut numbers = [0; 9];
    let number = unsafe { prosianek_fascn_decode(bytes.as_ptr(), bytes.len(), &mut numbers) };
    answer(number, 0, NO_TAG, numbers)
}

/// Fills the list with what a second reader says of many FASC-N, 25 bytes each, one behind the other: entry i is of string i, and
/// what decode says of that one alone, which is proved. A string that is no FASC-N is no refusal: its entry tells that. Entries
/// behind the last are all zero, and so is the whole list on a refusal: 17 for bytes left over, or then 3 for a list that is
/// shorter than there are strings. The next call may be lent the same list.
pub fn decode_by_table(strings: &[u8], list: &mut [Decoded]) -> Result<(), Refused> {
    let number = unsafe {
        prosianek_fascn_decode_by_table(
            strings.as_ptr(),
            strings.len(),
            list.as_mut_ptr(),
            list.len(),
        )
    };
    answer(number, 0, NO_TAG, ())
}

/// Writes the FASC-N of nine numbers into the room, 25 bytes.
pub fn encode(numbers: &[u64; 9], room: &mut [u8]) -> Result<(), Refused> {
    let number = unsafe { prosianek_fascn_encode(numbers, room.as_mut_ptr(), room.len()) };
    answer(number, 0, NO_TAG, ())
}

/// Goes over a piece of a folder and gives the state for the next one.
///
/// A caller goes through a folder so: over it, in pieces of any size and in their order, by this function and then folder_end; from
/// its start again, container by container, by row; then the two last lines, by last. That the file holds the same bytes both
/// times is the caller's to see to.
pub fn folder_step(mut state: State, piece: &[u8]) -> State {
    unsafe { prosianek_folder_step(&mut state.0, piece.as_ptr(), piece.len()) };
    state
}

/// Whether the pieces that led to this state are, joined, a folder: else 2 for today, or 32 for a folder that is cut short, has
/// bytes left over or a count above 256.
pub fn folder_end(today: u64, state: State) -> Result<(), Refused> {
    let number = unsafe { prosianek_folder_end(today, &state.0) };
    answer(number, 0, NO_TAG, ())
}

/// Writes the row of one container into the room, with the kind and the length (`size`) that stand in the folder and the offset of
/// the container's first byte there, and gives the row's length and the tally for the next row. A container that breaks a rule
/// gets a row, too, and so do a kind that is none and a container over 32,768 bytes, of which nothing need be lent. A refusal is
/// 2, 3 or 32, and the tally then stays as it was.
pub fn row(
    today: u64,
    kind: u8,
    offset: u64,
    size: u64,
    container: &[u8],
    mut tally: Tally,
    room: &mut [u8],
) -> Result<Row, Refused> {
    let mut length = 0;
    let number = unsafe {
        prosianek_row(
            today,
            kind,
            offset,
            size,
            container.as_ptr(),
            container.len(),
            &mut tally.good,
            &mut tally.agreement,
            &mut tally.fascn,
            room.as_mut_ptr(),
            room.len(),
            &mut length,
        )
    };
    let length = length as usize;
    answer(number, 0, NO_TAG, Row { length, tally })
}

/// Writes the two last lines of a summary into the room, by the tally of the last row, and gives their length.
pub fn last(tally: Tally, room: &mut [u8]) -> Result<usize, Refused> {
    let mut length = 0;
    let number = unsafe {
        prosianek_last(
            tally.good,
            tally.agreement,
            room.as_mut_ptr(),
            room.len(),
            &mut length,
        )
    };
    answer(number, 0, NO_TAG, length as usize)
}
