//! Whose certificate signed a biometric: the certificate stands in the biometric's own signature block or, where that holds none,
//! in the block of the CHUID, 3E. It is handed back as a part of the container that it lies in.

use crate::card::{self, Verdict, CONFORMS};
use crate::{der, number, values};

/// The kinds of a biometric that is signed.
pub const KINDS: [u64; 3] = [6, 7, 12];

/// The other container is checked as this kind.
pub const CHUID_KIND: u64 = 2;

/// The rows of a CHUID's FASC-N, 30, and of its signature block, 3E.
pub(crate) const FASCN_ROW: usize = 1;
const BLOCK_ROW: usize = 7;

/// The container that a certificate lies in, or that its check refuses.
#[derive(Clone, Copy, Debug, PartialEq, Eq, PartialOrd, Ord)]
pub enum Which {
    Neither = 0,
    Chuid = 1,
    Biometric = 2,
}

/// What a refusal tells: the verdict, and the container that it is about.
type Refusal = (Verdict, Which);

/// The certificate as a part of the container that is named: the verdict, which container, and the part. After a refusal it is the
/// empty part at the biometric's start.
pub fn signer<'a>(kind: u64, today: u64, chuid: &'a [u8], biometric: &'a [u8]) -> (Verdict, Which, &'a [u8]) {
    match certificate(kind, today, chuid, biometric) {
        Ok((which, part)) => (CONFORMS, which, part),
        Err((refusal, which)) => (refusal, which, &biometric[..0]),
    }
}

fn certificate<'a>(kind: u64, today: u64, chuid: &'a [u8], biometric: &'a [u8]) -> Result<(Which, &'a [u8]), Refusal> {
    if !KINDS.contains(&kind) {
        return Err(about_neither(number::KIND));
    }
    let (fascn, chuid_block) = read_chuid(today, chuid).map_err(|broken| (broken, Which::Chuid))?;
    let value = read_biometric(kind, today, biometric).map_err(|broken| (broken, Which::Biometric))?;
    if value[values::HEADER_FASCN] != *fascn {
        return Err(about_neither(number::FASCN_DIFFER));
    }
    let field = certificates_in(values::signature_of(value)).ok_or(about_neither(number::BIOMETRIC_BLOCK))?;
    if let Some(part) = first_item(field) {
        return Ok((Which::Biometric, part));
    }
    // only now is the other block needed
    let field = certificates_in(chuid_block).ok_or(about_neither(number::CHUID_BLOCK))?;
    match first_item(field) {
        Some(part) => Ok((Which::Chuid, part)),
        None => Err(about_neither(number::NEITHER_HOLDS)),
    }
}

fn about_neither(number: u64) -> Refusal {
    (card::without_place(number), Which::Neither)
}

/// The FASC-N and the signature block of a CHUID that conforms.
fn read_chuid(today: u64, container: &[u8]) -> Result<(&[u8], &[u8]), Verdict> {
    let (mut fascn, mut block) = (&container[..0], &container[..0]);
    card::checked(CHUID_KIND, today, container, |row, start, end| match row {
        FASCN_ROW => fascn = &container[start..end],
        BLOCK_ROW => block = &container[start..end],
        _ => (),
    })?;
    Ok((fascn, block))
}

/// The value of BC in a biometric that conforms.
fn read_biometric(kind: u64, today: u64, container: &[u8]) -> Result<&[u8], Verdict> {
    let mut value = &container[..0];
    card::checked(kind, today, container, |row, start, end| {
        // BC is the first row, and FE the other
        if row == 0 {
            value = &container[start..end];
        }
    })?;
    Ok(value)
}

// ---------------------------------------------------------------------------------------------
// Signature blocks

/// A block has at most this many levels of items, the outermost counted.
pub const BLOCK_LEVELS: usize = 16;

/// The content type of a SignedData, 1.2.840.113549.1.7.2.
pub const ID_SIGNED_DATA: [u8; 9] = [0x2A, 0x86, 0x48, 0x86, 0xF7, 0x0D, 0x01, 0x07, 0x02];

const INTEGER: u8 = 0x02;
const OBJECT_IDENTIFIER: u8 = 0x06;
const SEQUENCE: u8 = 0x30;
const SET: u8 = 0x31;
/// The content of a ContentInfo, and in a SignedData the certificates.
const TAG_0: u8 = 0xA0;
/// In a SignedData the crls.
const TAG_1: u8 = 0xA1;

/// What the certificates field of a block holds, if the block is a SignedData in its ContentInfo. One that is not there holds as
/// little as an empty one. Of the parts that are not opened here the tag alone is asked for.
pub fn certificates_in(block: &[u8]) -> Option<&[u8]> {
    der::whole(block, BLOCK_LEVELS).ok()?;
    let mut info = Items(Items(block).only(SEQUENCE)?);
    let content_type = info.take(OBJECT_IDENTIFIER)?;
    let content = info.only(TAG_0)?;
    if content_type != ID_SIGNED_DATA {
        return None;
    }
    let mut signed = Items(Items(content).only(SEQUENCE)?);
    // version, digestAlgorithms and encapContentInfo
    signed.take(INTEGER)?;
    signed.take(SET)?;
    signed.take(SEQUENCE)?;
    let certificates = signed.take(TAG_0).unwrap_or_default();
    let _crls = signed.take(TAG_1);
    // signerInfos
    signed.only(SET)?;
    Some(certificates)
}

/// The first of the items, with its tag and length; none where there are none.
fn first_item(items: &[u8]) -> Option<&[u8]> {
    let (_, _, behind) = der::front(items)?;
    Some(&items[..items.len() - behind.len()])
}

/// Items one behind the other, in a block that was read as a whole before. They are taken off the front.
struct Items<'a>(&'a [u8]);

impl<'a> Items<'a> {
    /// The content of the first item, if it has this tag. Another one stays where it is.
    fn take(&mut self, tag: u8) -> Option<&'a [u8]> {
        match der::front(self.0)? {
            (found, content, behind) if found == tag => {
                self.0 = behind;
                Some(content)
            }
            _ => None,
        }
    }

    /// The same, if nothing is behind it.
    fn only(mut self, tag: u8) -> Option<&'a [u8]> {
        self.take(tag).filter(|_| self.0.is_empty())
    }
}
