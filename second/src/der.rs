//! DER items: definite lengths in the fewest bytes, each constructed item filled exactly by its parts, and so many levels
//! at most. Items are judged in byte order, and an item that lies too deep before anything of it is looked at.

/// What is wrong with the first item that is not as it should be.
#[derive(Clone, Copy, Debug, PartialEq, Eq)]
pub enum Fault {
    /// It is no item: its tag, its length, its end, or what is left over behind the outermost one.
    Item,
    /// It lies deeper than is allowed.
    Depth,
}

/// An item that was read with all that is inside.
#[derive(Debug, PartialEq, Eq)]
pub struct Item<'a> {
    pub tag: u8,
    pub content: &'a [u8],
    /// How many parts it has; 0 for one that is not constructed, since only constructed items are opened.
    pub parts: usize,
}

const CONSTRUCTED: u8 = 0x20;
/// These bits of a tag are its number, and all of them together stand for a number of 31 or more.
const NUMBER: u8 = 0x1F;

pub fn is_constructed(tag: u8) -> bool {
    tag & CONSTRUCTED != 0
}

/// Reads one item that is all of the bytes. It lies at the first of so many levels, of which there is one at least.
pub fn whole(bytes: &[u8], levels: usize) -> Result<Item<'_>, Fault> {
    let (tag, content, behind) = front(bytes).ok_or(Fault::Item)?;
    let parts = if is_constructed(tag) { parts(content, levels - 1)? } else { 0 };
    if behind.is_empty() {
        Ok(Item { tag, content, parts })
    } else {
        Err(Fault::Item)
    }
}

/// How many items the content is, one behind the other, each with all that is inside. So many levels are left for them.
fn parts(content: &[u8], levels: usize) -> Result<usize, Fault> {
    let mut rest = content;
    let mut count = 0;
    while !rest.is_empty() {
        if levels == 0 {
            return Err(Fault::Depth);
        }
        let (tag, content, behind) = front(rest).ok_or(Fault::Item)?;
        if is_constructed(tag) {
            parts(content, levels - 1)?;
        }
        rest = behind;
        count += 1;
    }
    Ok(count)
}

/// The tag and the content of the item that the bytes begin with, and what is behind it; the content is not looked at.
#[inline]
pub fn front(bytes: &[u8]) -> Option<(u8, &[u8], &[u8])> {
    let (&tag, after_tag) = bytes.split_first()?;
    if tag & NUMBER == NUMBER {
        return None;
    }
    let (length, after_length) = length(after_tag)?;
    if length > after_length.len() as u64 {
        return None;
    }
    let (content, behind) = after_length.split_at(length as usize);
    Some((tag, content, behind))
}

/// The length that the bytes begin with, in the fewest bytes, and what is behind it: a number under 128 is its own byte;
/// any other has a byte 80 and how many bytes follow, of which the first is not 0.
#[inline]
fn length(bytes: &[u8]) -> Option<(u64, &[u8])> {
    let (&first, rest) = bytes.split_first()?;
    if first < 0x80 {
        return Some((u64::from(first), rest));
    }
    let count = usize::from(first & 0x7F);
    // no memory holds a length of more than eight bytes; of no bytes at all is the length that is not definite
    if count == 0 || count > 8 || count > rest.len() || rest[0] == 0 {
        return None;
    }
    let (digits, behind) = rest.split_at(count);
    let length = digits.iter().fold(0, |length, &digit| length << 8 | u64::from(digit));
    if length < 0x80 {
        None
    } else {
        Some((length, behind))
    }
}

#[cfg(test)]
mod tests {
    use super::*;

    #[test]
    fn lengths() {
        for (bytes, expected) in [
            (&[0x00][..], Some(0)),
            (&[0x7F], Some(127)),
            (&[0x81, 0x80], Some(128)),
            (&[0x81, 0xFF], Some(255)),
            (&[0x82, 0x01, 0x00], Some(256)),
            (&[0x82, 0xFF, 0xFF], Some(65_535)),
            (&[0x83, 0x01, 0x00, 0x00], Some(65_536)),
            (&[0x88, 0xFF, 0xFF, 0xFF, 0xFF, 0xFF, 0xFF, 0xFF, 0xFF], Some(u64::MAX)),
            (&[], None),
            (&[0x80], None),
            (&[0x81], None),
            (&[0x81, 0x00], None),
            (&[0x81, 0x7F], None),
            (&[0x82, 0x01], None),
            (&[0x82, 0x00, 0xFF], None),
            (&[0x83, 0x00, 0x01, 0x00], None),
            (&[0x89, 1, 0, 0, 0, 0, 0, 0, 0, 0], None),
            (&[0xFF], None),
        ] {
            assert_eq!(length(bytes).map(|(length, _)| length), expected, "{:02X?}", bytes);
        }
    }

    /// So many SEQUENCEs in each other, the innermost with this content.
    fn nested(levels: usize, content: &[u8]) -> Vec<u8> {
        let mut out = content.to_vec();
        for _ in 0..levels {
            out.splice(0..0, [0x30, out.len() as u8]);
        }
        out
    }

    #[test]
    fn levels_are_counted_from_the_outermost() {
        for levels in [1, 2, 8, 16] {
            assert!(whole(&nested(levels, &[]), levels).is_ok());
            assert!(whole(&nested(levels - 1, &[0x05, 0x00]), levels).is_ok());
            assert_eq!(whole(&nested(levels, &[0x05, 0x00]), levels), Err(Fault::Depth));
            // nothing of the item is looked at: not its tag, and not whether it is a whole one
            assert_eq!(whole(&nested(levels, &[0x1F, 0x00]), levels), Err(Fault::Depth));
            assert_eq!(whole(&nested(levels, &[0x05]), levels), Err(Fault::Depth));
            assert_eq!(whole(&nested(levels - 1, &[0x05]), levels), Err(Fault::Item));
        }
    }

    #[test]
    fn the_first_item_that_is_wrong_is_told() {
        let deep = nested(3, &[0x05, 0x00]);
        let both = |one: &[u8], other: &[u8]| {
            let content = [one, other].concat();
            whole(&nested(1, &content), 3).map(|item| item.parts)
        };
        assert_eq!(both(&[0x1F, 0x00], &deep), Err(Fault::Item));
        assert_eq!(both(&deep, &[0x1F, 0x00]), Err(Fault::Depth));
        assert_eq!(both(&[0x05, 0x00], &[0x30, 0x02, 0x02, 0x00]), Ok(2));
        // bytes behind the outermost item come last, and a length that is too large comes before what is inside
        assert_eq!(whole(&[&nested(1, &deep)[..], &[0x00]].concat(), 3), Err(Fault::Depth));
        assert_eq!(whole(&[&nested(1, &[])[..], &[0x00]].concat(), 3), Err(Fault::Item));
        let mut past = nested(1, &deep);
        past[1] += 1;
        assert_eq!(whole(&past, 3), Err(Fault::Item));
    }
}
