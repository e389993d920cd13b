//! Snapshots of tables under names.

use alloc::{vec, vec::Vec};
use core::fmt;
use core::ops::Deref;

use crate::{ImageRefusal, Name, Order, Refusal, Row, Table, ffi};

// The bytes of the length that a snapshot begins with.
const LENGTH: usize = 4;

/// Snapshots of tables, one under each [`Name`]: [`Table::save`](crate::Table::save) puts one there, and
/// [`Table::restore`](crate::Table::restore) makes a table of it. The bytes can be kept elsewhere and come back by
/// [`States::from`].
#[derive(Clone, PartialEq, Eq)]
pub struct States(Vec<u8>);

impl States {
    /// Nothing saved, with room under every name for any table of this order or a lower one. That is some 400 KiB a
    /// name at order 12.
    pub fn new(order: Order) -> States {
        States(vec![0; Name::COUNT * (LENGTH + order.image_bytes())])
    }

    /// Whether something was saved under the name.
    pub fn is_saved(&self, name: Name) -> bool {
        self.split(name).is_some_and(|(length, _)| u32::from_le_bytes(*length) != 0)
    }

    /// The names under which something was saved, in their order.
    pub fn saved(&self) -> impl Iterator<Item = Name> + '_ {
        Name::all().filter(|&name| self.is_saved(name))
    }

    /// As the calls of the archive lay them out.
    pub fn as_bytes(&self) -> &[u8] {
        &self.0
    }

    // The image under a name, of the length that is said before it; none if that is past its part.
    fn image(&self, name: Name) -> Option<&[u8]> {
        let (length, rest) = self.split(name)?;
        rest.get(..u32::from_le_bytes(*length) as usize)
    }

    // The part of a name as the length of the image and what follows it; none if the part is too short for a length.
    fn split(&self, name: Name) -> Option<(&[u8; LENGTH], &[u8])> {
        let part = self.0.len() / Name::COUNT;
        let end = name.get() as usize * part;
        self.0[end - part..end].split_first_chunk()
    }
}

impl Table {
    /// The table that was saved under the name by [`Table::save`].
    ///
    /// # Errors
    ///
    /// [`Refusal::NotSaved`] if nothing was. States that were kept elsewhere meanwhile may be damaged; then it is
    /// [`Refusal::BadLength`] without a fault if the image would end past its part of the states, or what
    /// [`Table::load`] says of the image, whose bytes are counted from its own first.
    pub fn restore(states: &States, name: Name) -> Result<Table, ImageRefusal> {
        Table::begun(states.image(name), |rows| ffi::restore(rows, states.as_bytes(), name.get()))
    }
}

impl<A: Deref<Target = [Row]>> Table<A> {
    /// Saves the table as it is under a name, in place of what was saved there before; [`Table::restore`] gives it
    /// back.
    ///
    /// ```
    /// use vpindex::{Day, Metric, Name, Order, Profile, States, Table, Tag};
    ///
    /// let order = Order::new(4)?;
    /// let mut table = Table::new(order, Metric::SumOfDifferences);
    /// table.add(Tag::new(36, 1)?, &Profile::new([41_250, 12_900, 18_500, 95], [0, 0])?, Day::MIN)?;
    ///
    /// let (mut states, morning) = (States::new(order), Name::new(1)?);
    /// table.save(&mut states, morning)?;
    /// table.remove(Tag::new(36, 1)?)?;
    /// assert!(table.is_empty() && states.is_saved(morning));
    /// assert_eq!(Table::restore(&states, morning)?.len(), 1);
    /// # Ok::<(), vpindex::Error>(())
    /// ```
    ///
    /// # Errors
    ///
    /// [`Refusal::NoRoom`] if the states were made for a lower order.
    pub fn save(&self, states: &mut States, name: Name) -> Result<(), Refusal> {
        Refusal::check(ffi::save(&self.rows, &mut states.0, name.get()).refusal)
    }
}

/// Short: the names under which something was saved, and the number of bytes.
impl fmt::Debug for States {
    fn fmt(&self, f: &mut fmt::Formatter<'_>) -> fmt::Result {
        let saved: Vec<u32> = self.saved().map(Name::get).collect();
        f.debug_struct("States").field("saved", &saved).field("bytes", &self.0.len()).finish()
    }
}

/// Of bytes that [`States::as_bytes`] gave, or any others: what is not a snapshot is refused when it is restored.
impl From<Vec<u8>> for States {
    fn from(bytes: Vec<u8>) -> States {
        States(bytes)
    }
}

impl From<States> for Vec<u8> {
    fn from(states: States) -> Vec<u8> {
        states.0
    }
}

#[cfg(test)]
mod tests {
    use std::format;

    use super::*;

    fn saved(bytes: &[u8]) -> Vec<u32> {
        States::from(bytes.to_vec()).saved().map(Name::get).collect()
    }

    // Parts of an eighth of the bytes, rounded down, in the order of the names; each with a length that is not 0.
    #[test]
    fn names_in_parts() {
        assert_eq!(saved(&[]), []);
        assert_eq!(saved(&[255; 31]), []);
        assert_eq!(saved(&[255; 32]), [1, 2, 3, 4, 5, 6, 7, 8]);
        for (at, name) in [(0, Some(1)), (3, Some(1)), (4, None), (5, Some(2)), (8, Some(2)), (38, Some(8)), (40, None)]
        {
            let mut bytes = [0; 47];
            bytes[at] = 1;
            assert_eq!(saved(&bytes), name.into_iter().collect::<Vec<u32>>(), "byte {at} of 47");
        }
        assert_eq!(States::new(Order::MAX).saved().count(), 0);
    }

    #[test]
    fn short_debug() {
        let mut bytes = vec![0; 80];
        bytes[10] = 1;
        assert_eq!(format!("{:?}", States::from(bytes)), "States { saved: [2], bytes: 80 }");
    }
}
