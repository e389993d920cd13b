//! Why a call was refused.

use core::error::Error;
use core::fmt;

/// Why a call was refused. A refused call changes nothing; of a herd list, the lines before the one refused stay added.
#[derive(Clone, Copy, Debug, PartialEq, Eq, Hash)]
#[non_exhaustive]
pub enum Refusal {
    /// The tag's country is not 1 to 999, or its national number is above 274,877,906,943.
    BadTag,
    /// A measure is not -10,000.00 to 10,000.00, that is 1,000,000 hundredths either way.
    BadMeasure,
    /// The order is above 12.
    BadOrder,
    /// There is no metric of this number.
    BadMetric,
    /// The nearest 0 items were asked for.
    NoCount,
    /// The result or dues area, or one of a drafting, is shorter than the reply, or the states have no room for the
    /// snapshot.
    NoRoom,
    /// The image's length is wrong, or past the part of the states that it is in.
    BadLength,
    /// The image is of no known form, or a field of some slot breaks a rule: its tag, a measure, its mark, or the
    /// number of the marks.
    BadImage,
    /// The tag is in the table.
    AlreadyLive,
    /// The tag, or a listed one, is not in the table.
    NotLive,
    /// The table holds as many items as its order allows.
    Full,
    /// A lent area is shorter than the order needs.
    ShortArea,
    /// The sizes of the image, or header, sizes or marks of a table, break the rules.
    BadTable,
    /// The list's first line is not `tag;kg;hip;girth;gain` and a line feed.
    BadListHeader,
    /// A line of a list is not of the form.
    BadListLine,
    /// A weight is above 100.
    BadWeight,
    /// The day is 0.
    BadDay,
    /// The name is not 1 to 8.
    BadName,
    /// Nothing was saved under the name.
    NotSaved,
    /// Of a slot of the image: an earlier slot of its bucket has its tag, or it is live and an earlier live slot has
    /// it.
    DuplicateTag,
    /// The item in a slot of the image is not the one that the tree's layout puts there.
    MisplacedItem,
    /// The threshold of a slot of the image is not the one that the tree's layout gives it.
    BadThreshold,
    /// A listed item weighs below 0, or the list has more than 4,096 tags.
    NoDues,
    /// A batch has no query, or more than 16.
    BadBatch,
    /// There is no radius, or there are more than 32, or the chosen place is not in their list.
    BadRadii,
    /// A refusal by a number that this crate does not know: the archive is newer.
    Other(u32),
}

use Refusal::*;

impl Refusal {
    const KNOWN: [Refusal; 25] = [
        BadTag,
        BadMeasure,
        BadOrder,
        BadMetric,
        NoCount,
        NoRoom,
        BadLength,
        BadImage,
        AlreadyLive,
        NotLive,
        Full,
        ShortArea,
        BadTable,
        BadListHeader,
        BadListLine,
        BadWeight,
        BadDay,
        BadName,
        NotSaved,
        DuplicateTag,
        MisplacedItem,
        BadThreshold,
        NoDues,
        BadBatch,
        BadRadii,
    ];

    /// The number by which the archive's calls say it.
    pub fn number(self) -> u32 {
        self.number_and_words().0
    }

    /// Ok for 0, else the refusal of this number.
    pub(crate) fn check(number: u32) -> Result<(), Refusal> {
        if number == 0 {
            return Ok(());
        }
        let known = Refusal::KNOWN.into_iter().find(|refusal| refusal.number() == number);
        Err(known.unwrap_or(Other(number)))
    }

    fn number_and_words(self) -> (u32, &'static str) {
        match self {
            BadTag => (1, "the tag's country is not 1 to 999, or its national number is above 274,877,906,943"),
            BadMeasure => (2, "a measure is not -10,000.00 to 10,000.00"),
            BadOrder => (3, "the order is above 12"),
            BadMetric => (4, "there is no metric of this number"),
            NoCount => (5, "the nearest 0 items were asked for"),
            NoRoom => (6, "an area is too short for the reply, or the states for the snapshot"),
            BadLength => (7, "the image's length is wrong, or past the part of the states that it is in"),
            BadImage => {
                (8, "the image is of no known form, or a tag, a measure, a mark or the number of marks breaks a rule")
            }
            AlreadyLive => (20, "the tag is in the table already"),
            NotLive => (21, "the tag is not in the table"),
            Full => (22, "the table holds as many items as its order allows"),
            ShortArea => (23, "a lent area is shorter than the order needs"),
            BadTable => (24, "the sizes of the image, or header, sizes or marks of the table, break the rules"),
            BadListHeader => (30, "the header is not `tag;kg;hip;girth;gain` and a line feed"),
            BadListLine => (
                31,
                "not of the form: a tag of 15 digits, then four values, each after one semicolon (a minus or none, \
                 1 to 5 digits, a comma, 2 digits), and a line feed",
            ),
            BadWeight => (32, "a weight is above 100"),
            BadDay => (33, "the day is 0"),
            BadName => (34, "the name is not 1 to 8"),
            NotSaved => (35, "nothing was saved under the name"),
            DuplicateTag => {
                (36, "an earlier slot of its bucket has its tag, or it is live and an earlier live slot has it")
            }
            MisplacedItem => (37, "its item is not the one that the tree's layout puts there"),
            BadThreshold => (38, "its threshold is not the one that the tree's layout gives it"),
            NoDues => (39, "a listed item weighs below 0, or the list has more than 4,096 tags"),
            BadBatch => (40, "a batch has no query, or more than 16"),
            BadRadii => (41, "there are not 1 to 32 radii, or the chosen place is not in their list"),
            Other(number) => (number, "a refusal that this crate does not know"),
        }
    }
}

/// In words; a number that this crate does not know is written after them.
impl fmt::Display for Refusal {
    fn fmt(&self, f: &mut fmt::Formatter<'_>) -> fmt::Result {
        let (number, words) = self.number_and_words();
        match self {
            Other(_) => write!(f, "{words}: {number}"),
            _ => f.write_str(words),
        }
    }
}

impl Error for Refusal {}

#[cfg(test)]
mod tests {
    use std::string::ToString;

    use super::*;

    #[test]
    fn numbers() {
        assert_eq!(Refusal::check(0), Ok(()));
        for number in (1..=8).chain(20..=24).chain(30..=41) {
            let refusal = Refusal::check(number).expect_err("not 0");
            assert_eq!(refusal.number(), number);
            assert_ne!(refusal, Other(number));
        }
        for number in [9, 19, 25, 29, 42, u32::MAX] {
            assert_eq!(Refusal::check(number), Err(Other(number)));
        }
        assert_eq!(Other(42).to_string(), "a refusal that this crate does not know: 42");
    }
}
