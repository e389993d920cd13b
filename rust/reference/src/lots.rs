//! RULES 21: items drafted into lots by each of some radii.

use crate::item::{Entry, Item, Space, distance};
use crate::refusal::{BAD_RADII, Refused, ensure};

/// The most radii of a list.
pub const MOST_RADII: usize = 32;

/// The number of lots, and the size of the largest.
pub type Summary = [u32; 2];

/// What a drafting tells.
#[derive(Clone, Debug, Default, PartialEq, Eq)]
pub struct Draft {
    /// Of each radius.
    pub summary: Vec<Summary>,
    /// By the chosen radius, the tag and the lot of every item, by lot, then tag.
    pub listing: Vec<Entry>,
}

/// From 1 to 32 radii, one of them chosen by its place from 1.
pub fn check_radii(radii: &[u32], chosen: u32) -> Result<(), Refused> {
    let places = 1..=radii.len();
    ensure((1..=MOST_RADII).contains(&radii.len()) && places.contains(&(chosen as usize)), BAD_RADII)
}

/// The lots of items by a radius, in the order led. Items of equal tags go in the order handed over.
pub fn lots(space: &Space, radius: u32, items: &[Item]) -> Vec<Vec<Item>> {
    let mut undrafted = items.to_vec();
    undrafted.sort_by_key(|item| item.tag);
    let mut lots = vec![];
    while let Some(&leader) = undrafted.first() {
        let is_near = |item: &Item| distance(space, &leader.profile, &item.profile) <= radius;
        let (mut lot, others) = (vec![leader], undrafted.split_off(1));
        for item in others {
            if is_near(&item) { lot.push(item) } else { undrafted.push(item) }
        }
        undrafted.remove(0);
        lots.push(lot);
    }
    lots
}

/// The drafting of items by radii that pass.
pub fn draft(space: &Space, items: &[Item], radii: &[u32], chosen: u32) -> Draft {
    let mut draft = Draft::default();
    for (place, &radius) in (1..).zip(radii) {
        let lots = lots(space, radius, items);
        let largest = lots.iter().map(Vec::len).max().unwrap_or(0);
        draft.summary.push([lots.len() as u32, largest as u32]);
        if place == chosen {
            let numbered = (1..).zip(&lots).flat_map(|(lot, items)| items.iter().map(move |item| [item.tag, lot]));
            draft.listing = numbered.collect();
        }
    }
    draft
}
