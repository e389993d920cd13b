//! What the reading of a herd list came to.

#[cfg(feature = "alloc")]
use alloc::format;
#[cfg(feature = "alloc")]
use alloc::string::String;
use core::error::Error;
use core::fmt;
use core::ops::DerefMut;

#[cfg(feature = "alloc")]
use crate::ListFault;
use crate::{Day, Refusal, Row, Table, ffi};

/// What the reading of a whole list did.
#[derive(Clone, Copy, Debug, PartialEq, Eq, Hash)]
pub struct ListRead {
    /// Items added, one for each line after the header.
    pub added: u32,
    /// Distances worked out by all their builds.
    pub distances: u32,
}

/// Where the reading of a list stopped, and why. The lines before stay added.
///
/// It is written as, for one,
/// ``line 3, field 2: `412.50` has a point where a comma belongs (1 added before it)``.
#[derive(Clone, Debug, PartialEq, Eq, Hash)]
pub struct ListRefusal {
    /// The line that was refused, the header being line 1.
    pub line: u32,
    /// Why, as the archive says it.
    pub refusal: Refusal,
    /// What is wrong in the line, where its text shows it.
    #[cfg(feature = "alloc")]
    pub fault: Option<ListFault>,
    /// Items added by the lines before it.
    pub added: u32,
    /// Distances worked out by their builds.
    pub distances: u32,
}

#[cfg(feature = "alloc")]
impl ListRefusal {
    /// What is wrong with the line, without how many were added before it.
    pub fn words(&self) -> String {
        let ListRefusal { line, refusal, fault, .. } = self;
        fault.as_ref().map_or_else(|| format!("line {line}: {refusal}"), |fault| fault.told(*line))
    }
}

impl fmt::Display for ListRefusal {
    fn fmt(&self, f: &mut fmt::Formatter<'_>) -> fmt::Result {
        #[cfg(feature = "alloc")]
        f.write_str(&self.words())?;
        #[cfg(not(feature = "alloc"))]
        write!(f, "line {}: {}", self.line, self.refusal)?;
        write!(f, " ({} added before it)", self.added)
    }
}

/// Its source is the refusal, where its own words are those of a fault.
impl Error for ListRefusal {
    #[cfg(feature = "alloc")]
    fn source(&self) -> Option<&(dyn Error + 'static)> {
        self.fault.as_ref().map(|_| &self.refusal as _)
    }
}

impl<A: DerefMut<Target = [Row]>> Table<A> {
    /// Adds a herd list as a scale head writes it, all of whose items were weighed on this day: the header line, then a
    /// line for each item with its tag and its four measures in units, not hundredths. The codes are zero. Every line
    /// ends in a line feed, the last one too.
    ///
    /// ```
    /// use vpindex::{Day, Metric, Order, Refusal, Table, Tag};
    ///
    /// let mut table = Table::new(Order::new(4)?, Metric::SumOfDifferences);
    /// let list = "tag;kg;hip;girth;gain\n\
    ///             036000000000101;412,50;129,00;185,00;0,95\n\
    ///             036000000000102;398,00;127,00;181,00;-0,05\n";
    /// let day = Day::new(305)?;
    /// assert_eq!(table.read_list(list.as_bytes(), day)?.added, 2);
    /// let second = table.look_up(Tag::new(36, 102)?)?;
    /// assert_eq!((second.profile.measures(), second.day), ([39_800, 12_700, 18_100, -5], day));
    ///
    /// let again = table.read_list(list.as_bytes(), day).unwrap_err();
    /// assert_eq!((again.line, again.refusal), (2, Refusal::AlreadyLive));
    /// assert_eq!(
    ///     again.to_string(),
    ///     "line 2, field 1: `036000000000101` is in the table already (0 added before it)"
    /// );
    /// # Ok::<(), vpindex::Error>(())
    /// ```
    ///
    /// # Errors
    ///
    /// The reading stops at the first line that is refused, and the lines before it stay added.
    /// [`Refusal::BadListHeader`] if the list begins with another line, [`Refusal::BadListLine`] for a line not of the
    /// form; else a line is refused as [`Table::add`] or the making of its tag and profile would be. What is wrong in
    /// the line is in [`ListRefusal::fault`].
    pub fn read_list(&mut self, list: &[u8], day: Day) -> Result<ListRead, ListRefusal> {
        let reply = ffi::read_list(&mut self.rows, &mut self.work, list, day.get());
        let ffi::ListRead { refusal, line, added, distances } = reply;
        Refusal::check(refusal).map_err(|refusal| ListRefusal {
            line,
            refusal,
            #[cfg(feature = "alloc")]
            fault: ListFault::of(list, line, refusal),
            added,
            distances,
        })?;
        Ok(ListRead { added, distances })
    }
}
