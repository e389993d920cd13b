//! One error for everything that the crate refuses.

use core::error::Error as CoreError;
use core::fmt;

use crate::{ExtendRefusal, ImageRefusal, ListRefusal, ParseError, Refusal};

/// Whatever this crate refuses, so that `?` takes all of it. It is written as what it holds is, and nothing is lost of
/// that:
///
/// ```
/// use vpindex::{Day, Metric, Order, Profile, Table, Tag};
///
/// fn first_neighbour(tag: &str) -> Result<String, vpindex::Error> {
///     let mut table = Table::new(Order::holding(6)?, Metric::SumOfDifferences); // a `Refusal`
///     table.read_list(b"tag;kg;hip;girth;gain\n", Day::MIN)?; // a `ListRefusal`
///     table.add(tag.parse()?, &Profile::default(), Day::MIN)?; // a `ParseError`
///     Ok(table.nearest(&Profile::default(), 1, None)?[0].tag().to_string())
/// }
///
/// assert_eq!(first_neighbour("036000000000101"), Ok("036000000000101".to_string()));
/// assert_eq!(first_neighbour("36").map_err(|error| error.to_string()), Err("not a tag of 15 digits".to_string()));
/// ```
#[derive(Clone, Debug, PartialEq, Eq, Hash)]
#[non_exhaustive]
pub enum Error {
    /// Why a call or a value was refused.
    Refused(Refusal),
    /// Why a text is not a value.
    Text(ParseError),
    /// Why an image was refused.
    Image(ImageRefusal),
    /// Where the reading of a herd list stopped, and why.
    List(ListRefusal),
    /// At which item an extend stopped, and why.
    Extend(ExtendRefusal),
}

impl Error {
    /// The refusal that is beneath it; none where a text is not of the form.
    pub fn refusal(&self) -> Option<Refusal> {
        match self {
            Error::Refused(refusal) => Some(*refusal),
            Error::Text(ParseError::Form(_)) => None,
            Error::Text(ParseError::Refused(refusal)) => Some(*refusal),
            Error::Image(refused) => Some(refused.refusal),
            Error::List(refused) => Some(refused.refusal),
            Error::Extend(refused) => Some(refused.refusal),
        }
    }

    fn held(&self) -> &(dyn CoreError + 'static) {
        match self {
            Error::Refused(refusal) => refusal,
            Error::Text(error) => error,
            Error::Image(refused) => refused,
            Error::List(refused) => refused,
            Error::Extend(refused) => refused,
        }
    }
}

impl fmt::Display for Error {
    fn fmt(&self, f: &mut fmt::Formatter<'_>) -> fmt::Result {
        fmt::Display::fmt(self.held(), f)
    }
}

/// Its source is that of what it holds, whose words are its own.
impl CoreError for Error {
    fn source(&self) -> Option<&(dyn CoreError + 'static)> {
        self.held().source()
    }
}

macro_rules! held_as {
    ($($held:ident $kind:ident),*) => {$(
        impl From<$held> for Error {
            fn from(held: $held) -> Error {
                Error::$kind(held)
            }
        }
    )*};
}

held_as!(Refusal Refused, ParseError Text, ImageRefusal Image, ListRefusal List, ExtendRefusal Extend);
