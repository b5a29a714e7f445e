//! desk KIND TODAY FILE [CHUID]: all calls on the container in a file. It prints the desk report, an empty line, and then what
//! each of the other calls says. With the file of the CHUID of the same card it also looks for the certificate of who signed
//! the container, which has to be a biometric: kind 6, 7 or 12. examples/c/desk.c prints the same text, and says what is
//! printed and why no more.
//!
//! Exit status, as that of the desk: 0 if the container conforms; 1 if it breaks a rule, the report or the certificate is
//! refused, or the calls disagree; 2 for bad words, a file that cannot be read whole, or text that cannot be written.
mod prosianek;
use prosianek::{Decoded, Point, Refused, Which};
use std::io::{self, Write};
use std::process::exit;

/// The tag of the element of each kind that is viewed.
fn tag_of(kind: u64) -> u64 {
    match kind {
        prosianek::CCC => 0xF5,
        prosianek::CHUID => 0x30,
        prosianek::DISCOVERY => 0x5F2F,
        prosianek::PRINTED => 0x06,
        prosianek::SECURITY => 0xBA,
        prosianek::FINGERS | prosianek::FACE | prosianek::IRIS => 0xBC,
        _ => 0x70,
    }
}

/// The element of a CHUID with its signature. That of a biometric is the end of BC, which is viewed.
const CHUID_SIGNATURE: u64 = 0x3E;

/// Where the views stand in the value of BC: the byte with the first one's count is there, and its points follow. Between a
/// view's last point and the next view's count are five bytes.
const FIRST_COUNT: usize = 117;
const POINT_BYTES: usize = 6;
const BETWEEN_VIEWS: usize = 5;

/// A word of digits. parse alone would take a plus sign too.
fn number_of(word: &str) -> Option<u64> {
    if word.len() > 19 || !word.bytes().all(|b| b.is_ascii_digit()) {
        return None;
    }
    word.parse().ok()
}

/// What a refusal names. Two hyphens stand for no tag, as in the report.
fn words_of(r: Refused) -> String {
    let tag = r.tag.map_or("--".to_string(), |tag| format!("{tag:02X}"));
    format!("number {}, place {}, tag {tag}", r.number, r.place)
}

fn refused(out: &mut impl Write, call: &str, r: Refused) -> io::Result<()> {
    writeln!(out, "{call}: {}", words_of(r))
}

/// The file's bytes. A report of half a file would be wrong.
fn read_file(name: &str) -> Vec<u8> {
    std::fs::read(name).unwrap_or_else(|_| {
        eprintln!("the file '{name}' cannot be read");
        exit(2)
    })
}

fn main() {
    let words: Vec<String> = std::env::args().collect();
    let numbers = match words.len() {
        4 | 5 => number_of(&words[1]).zip(number_of(&words[2])),
        _ => None,
    };
    let (kind, today) = numbers.unwrap_or_else(|| {
        eprintln!("desk KIND TODAY FILE [CHUID]");
        exit(2)
    });
    let container = read_file(&words[3]);
    let chuid = words.get(4).map(|name| read_file(name));
    let mut out = io::stdout();
    match tell(&mut out, kind, today, &container, chuid.as_deref())
        .and_then(|good| out.flush().map(|()| good))
    {
        Ok(good) => exit(!good as i32),
        Err(_) => {
            eprintln!("not all could be written");
            exit(2)
        }
    }
}

/// Prints what the calls say of a container; whether it conforms. The signer is looked for where there is a CHUID.
fn tell(
    out: &mut impl Write,
    kind: u64,
    today: u64,
    container: &[u8],
    chuid: Option<&[u8]>,
) -> io::Result<bool> {
    let mut room = [0; prosianek::REPORT_ROOM];
    match prosianek::report(kind, today, container, &mut room) {
        Ok(length) => out.write_all(&room[..length])?,
        Err(r) => {
            writeln!(out, "refused {}", r.number)?;
            return Ok(false);
        }
    }
    writeln!(out)?;

    // One call gives the verdict and the sheet, whose room is large enough for any.
    let mut off = false;
    let mut sheet = vec![0; prosianek::SHEET_ROOM];
    let verdict = prosianek::check(kind, today, container, &mut sheet);
    match verdict {
        Err(r) => refused(out, "check", r)?,
        Ok(None) => {
            writeln!(out, "check: conforms, without room for its sheet")?;
            off = true;
        }
        Ok(Some(length)) => {
            writeln!(out, "check: conforms, with a sheet of {length} bytes")?;
            off |= !written_back(out, kind, today, &sheet[..length], container)?;
        }
    }

    // With an empty room the same call gives the verdict alone.
    off |= prosianek::check(kind, today, container, &mut []) != verdict.map(|_| None);

    off |= !viewed(out, kind, today, container, verdict.err())?;
    off |= kind == prosianek::FINGERS && !listed(out, today, container, verdict.err())?;
    if let Some(chuid) = chuid {
        off |= !signer(out, kind, today, container, chuid, verdict.err())?;
    }
    Ok(!off && verdict.is_ok())
}

/// Views an element; whether the answer fits the check's. A container that breaks a rule has no values to view: the view then
/// answers as the check does.
fn viewed(
    out: &mut impl Write,
    kind: u64,
    today: u64,
    container: &[u8],
    said: Option<Refused>,
) -> io::Result<bool> {
    let element = tag_of(kind);
    match prosianek::view(kind, today, container, element) {
        Err(r) => {
            refused(out, "view", r)?;
            Ok(said == Some(r))
        }
        Ok(range) => {
            let (length, start) = (range.len(), range.start);
            writeln!(out, "view: tag {element:02X} has {length} bytes at {start}")?;
            let back = kind != prosianek::CHUID || there_and_back(out, &container[range])?;
            Ok(back && said.is_none())
        }
    }
}

/// Lists the points of a FINGERS container; whether they came back and the answer fits the check's. The call takes no kind: it
/// answers as the check of this kind does, where a rule is broken.
fn listed(
    out: &mut impl Write,
    today: u64,
    container: &[u8],
    said: Option<Refused>,
) -> io::Result<bool> {
    // as long as any answer
    let mut list = [Point::default(); prosianek::MOST_POINTS];
    match prosianek::points(today, container, &mut list) {
        Err(r) => {
            refused(out, "lists", r)?;
            Ok(said == Some(r))
        }
        Ok((first, second)) => {
            let (one, behind) = list.split_at(first);
            if !put_back(today, container, one, &behind[..second]) {
                writeln!(out, "lists: the points did not come back")?;
                return Ok(false);
            }
            writeln!(out, "lists: the points came back byte for byte")?;
            Ok(said.is_none())
        }
    }
}

/// Whether the points of both views, put back, are the bytes of the container that they were read from.
fn put_back(today: u64, container: &[u8], first: &[Point], second: &[Point]) -> bool {
    let kind = prosianek::FINGERS;
    match prosianek::view(kind, today, container, tag_of(kind)) {
        Err(_) => false,
        Ok(range) => {
            let view = &container[range][FIRST_COUNT..];
            let next = 1 + POINT_BYTES * first.len() + BETWEEN_VIEWS;
            same_view(view, first) && same_view(&view[next..], second)
        }
    }
}

/// Whether these points, put back, are the view whose count is the first of these bytes.
fn same_view(view: &[u8], points: &[Point]) -> bool {
    let mut pairs = view[1..].chunks_exact(POINT_BYTES).zip(points);
    usize::from(view[0]) == points.len()
        && view.len() > POINT_BYTES * points.len()
        && pairs.all(|(six, point)| same_point(six, point))
}

/// Whether a point, put back, is these six bytes. Whole numbers are compared, so that none is cut to a byte.
fn same_point(bytes: &[u8], point: &Point) -> bool {
    let one = |at: usize| u64::from(bytes[at]);
    let two = |at: usize| one(at) * 256 + one(at + 1);
    two(0) == point.sort * 16_384 + point.x
        && two(2) == point.y
        && one(4) == point.angle
        && one(5) == point.quality
}

/// Looks for the certificate of who signed the biometric; whether there is one, and it lies in the element with the signature.
/// `said` is what the check says of the biometric.
fn signer(
    out: &mut impl Write,
    kind: u64,
    today: u64,
    biometric: &[u8],
    chuid: &[u8],
    said: Option<Refused>,
) -> io::Result<bool> {
    let (which, range) = match prosianek::signer(kind, today, chuid, biometric) {
        Ok(found) => found,
        Err((which, r)) => {
            let name = which.map_or("neither", name_of);
            writeln!(out, "signer: {}, of {name}", words_of(r))?;
            let of_chuid = prosianek::check(prosianek::CHUID, today, chuid, &mut []).err();
            if !fits(r, which, of_chuid, said) {
                writeln!(out, "signer: the checks say otherwise")?;
            }
            return Ok(false);
        }
    };
    // the certificate itself would be `&chuid[range]` or `&biometric[range]`
    let element = match which {
        Which::Chuid => prosianek::view(prosianek::CHUID, today, chuid, CHUID_SIGNATURE),
        Which::Biometric => prosianek::view(kind, today, biometric, tag_of(kind)),
    };
    let found = element.map_or(false, |e| e.start <= range.start && range.end <= e.end);
    if found {
        writeln!(out, "signer: the certificate is in {}", name_of(which))?;
    } else {
        writeln!(
            out,
            "signer: the certificate is not in the element with the signature"
        )?;
    }
    Ok(found && said.is_none())
}

fn name_of(which: Which) -> &'static str {
    match which {
        Which::Chuid => "the CHUID",
        Which::Biometric => "the biometric",
    }
}

/// Whether a refusal of the signer fits the checks of the CHUID and of the biometric: the first of them that refuses is handed
/// on, and of two that conform neither is named. 1 comes before both.
fn fits(
    r: Refused,
    which: Option<Which>,
    of_chuid: Option<Refused>,
    of_biometric: Option<Refused>,
) -> bool {
    match which {
        Some(Which::Chuid) => of_chuid == Some(r),
        Some(Which::Biometric) => of_chuid.is_none() && of_biometric == Some(r),
        None => r.number == 1 || (of_chuid.is_none() && of_biometric.is_none()),
    }
}

/// Writes the container of a sheet; whether it is the one that the sheet was read from. A container with a length in a longer
/// form than it needs comes back in fewer bytes: each length is written in the fewest.
fn written_back(
    out: &mut impl Write,
    kind: u64,
    today: u64,
    sheet: &[u8],
    container: &[u8],
) -> io::Result<bool> {
    let mut written = vec![0; prosianek::LARGEST_CONTAINER];
    match prosianek::write(kind, today, sheet, &mut written) {
        Err(r) => {
            refused(out, "write", r)?;
            Ok(false)
        }
        Ok(length) if written[..length] == *container => {
            writeln!(out, "write: the container came back byte for byte")?;
            Ok(true)
        }
        Ok(length)
            if length < container.len() && has_sheet(kind, today, &written[..length], sheet) =>
        {
            writeln!(
                out,
                "write: the container came back in {length} bytes, the fewest"
            )?;
            Ok(true)
        }
        Ok(_) => {
            writeln!(out, "write: the container did not come back")?;
            Ok(false)
        }
    }
}

/// Whether a container has this sheet.
fn has_sheet(kind: u64, today: u64, container: &[u8], sheet: &[u8]) -> bool {
    let mut again = vec![0; prosianek::SHEET_ROOM];
    let verdict = prosianek::check(kind, today, container, &mut again);
    verdict == Ok(Some(sheet.len())) && again[..sheet.len()] == *sheet
}

/// Decodes a FASC-N, by both readers, and encodes it again; whether they say the same and it came back.
fn there_and_back(out: &mut impl Write, fascn: &[u8]) -> io::Result<bool> {
    let numbers = match prosianek::decode(fascn) {
        Ok(numbers) => numbers,
        Err(r) => {
            refused(out, "decode", r)?;
            return Ok(false);
        }
    };
    writeln!(
        out,
        "decode: agency {:04}, system {:04}",
        numbers[0], numbers[1]
    )?;
    let alike = by_table(out, fascn, numbers)?;
    let mut room = [0; prosianek::FASCN_BYTES];
    match prosianek::encode(&numbers, &mut room) {
        Err(r) => {
            refused(out, "encode", r)?;
            Ok(false)
        }
        Ok(()) if room[..] == *fascn => {
            writeln!(out, "encode: the FASC-N came back byte for byte")?;
            Ok(alike)
        }
        Ok(()) => {
            writeln!(out, "encode: the FASC-N did not come back")?;
            Ok(false)
        }
    }
}

/// Decodes a FASC-N by the second reader, which is for many of them and is handed this one alone; whether it reads the numbers
/// that the first one did.
fn by_table(out: &mut impl Write, fascn: &[u8], numbers: [u64; 9]) -> io::Result<bool> {
    let mut list = [Decoded::default()];
    if let Err(r) = prosianek::decode_by_table(fascn, &mut list) {
        refused(out, "decode by table", r)?;
        return Ok(false);
    }
    let alike = list == [Decoded { number: 0, numbers }];
    let said = if alike { "the same" } else { "other" };
    writeln!(out, "decode by table: {said} numbers")?;
    Ok(alike)
}
