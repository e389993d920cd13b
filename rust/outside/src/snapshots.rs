//! States to save into and to restore from: areas of any length and content, with snapshots in their parts, whole and
//! damaged.

use reference::states::{LENGTH_BYTES, NAMES, part_of};

use crate::lists::length;
use crate::random::Random;

/// A name, now and then a number that is none.
pub fn name(random: &mut Random) -> u32 {
    if random.one_in(12) { random.pick(&[0, 9, 10, 256, u32::MAX]) } else { 1 + random.below(NAMES as usize) as u32 }
}

/// An area of any content whose parts have about so many bytes behind a length, or one of few bytes.
pub fn area(random: &mut Random, needed: usize) -> Vec<u8> {
    let part = length(random, LENGTH_BYTES + needed);
    let bytes = if random.one_in(8) { random.below(41) } else { NAMES as usize * part + random.below(NAMES as usize) };
    random.fill(bytes, |random| random.word() as u8)
}

/// An area with this image in the part of the name as far as it has room, the length right or not.
pub fn holding(random: &mut Random, image: &[u8], name: u32) -> Vec<u8> {
    let mut area = area(random, image.len());
    if let Ok(part) = part_of(area.len(), name) {
        let part = &mut area[part];
        let said = said_length(random, image.len(), part.len().saturating_sub(LENGTH_BYTES));
        let snapshot = [&said.to_le_bytes(), image].concat();
        part.iter_mut().zip(snapshot).for_each(|(byte, new)| *byte = new);
    }
    area
}

// What a part with so much room says is the length of an image: mostly the length itself, else one that is wrong for
// the image or for the part.
fn said_length(random: &mut Random, length: usize, room: usize) -> u32 {
    let length = length as u32;
    match random.below(24) {
        0 => 0,
        1 => length.wrapping_sub(1),
        2 => length + 1,
        3 => room as u32,
        4 => room as u32 + 1,
        5 => length | 1 << random.pick(&[16, 24, 31]),
        6 => random.pick(&[1, 3, 4, u32::MAX, 1 << 31]),
        _ => length,
    }
}

/// The states with some bytes of other parts changed, or of those left over: the part of the name stays as it is.
pub fn elsewhere(random: &mut Random, states: &[u8], name: u32) -> Vec<u8> {
    let mut area = states.to_vec();
    let own = part_of(area.len(), name).unwrap_or(0..0);
    for _ in 0..random.below(60) {
        let at = random.below(area.len());
        if !own.contains(&at) && at < area.len() {
            area[at] = random.word() as u8;
        }
    }
    area
}
