//! RULES 19: snapshots of a table under eight names, each in its part of one area of bytes.

use std::ops::Range;

use crate::refusal::{BAD_LENGTH, BAD_NAME, NO_ROOM, NOT_SAVED, Refused, ensure};

/// The names: 1 to 8.
pub const NAMES: u32 = 8;
/// The bytes of the length that stands before an image.
pub const LENGTH_BYTES: usize = 4;

/// Where the part of a name lies in an area of so many bytes.
pub fn part_of(bytes: usize, name: u32) -> Result<Range<usize>, Refused> {
    ensure((1..=NAMES).contains(&name), BAD_NAME)?;
    let (part, before) = (bytes / NAMES as usize, name as usize - 1);
    Ok(before * part..(before + 1) * part)
}

/// The image in the part of a name.
pub fn image_in(states: &[u8], name: u32) -> Result<&[u8], Refused> {
    let part = &states[part_of(states.len(), name)?];
    let (length, rest) = part.split_first_chunk().ok_or(NOT_SAVED)?;
    let length = u32::from_le_bytes(*length) as usize;
    ensure(length != 0, NOT_SAVED)?;
    rest.get(..length).ok_or(BAD_LENGTH)
}

/// Puts an image's length and the image at the start of a part.
pub fn put_image(part: &mut [u8], image: &[u8]) -> Result<(), Refused> {
    ensure(part.len() >= LENGTH_BYTES + image.len(), NO_ROOM)?;
    let (length, rest) = part.split_at_mut(LENGTH_BYTES);
    length.copy_from_slice(&(image.len() as u32).to_le_bytes());
    rest[..image.len()].copy_from_slice(image);
    Ok(())
}
