//! Why a call was refused.
use std::error::Error;
use std::fmt;
use std::num::NonZeroU8;

macro_rules! refusals {
    ($($number:literal $name:ident $words:literal)*) => {
        /// Why a call was refused. Where several causes apply it is the one of the lowest number, but 19 and 21 before
        /// 16 and 17; a file is judged in byte order, and so is a grid, before the tree that is wanted for it. Later
        /// versions of the library may have more. A note that is too long to be saved would have a field of wrong
        /// length, and is refused as one.
        ///
        /// It shows its number and its words, also where `main` returns it.
        ///
        /// ```
        /// use kiln::{Refusal, Table};
        ///
        /// let refusal = Table::fresh(9, 8, 0).unwrap_err();
        /// assert_eq!(refusal, Refusal::Side);
        /// assert_eq!(refusal.to_string(), "refused 1: a side of 0 or above 8");
        /// assert_eq!(format!("Error: {:?}", refusal), "Error: refused 1: a side of 0 or above 8");
        /// // It is an error like any other.
        /// let error: Box<dyn std::error::Error> = refusal.into();
        /// assert!(error.source().is_none());
        /// ```
        #[derive(Clone, Copy, PartialEq, Eq, Hash)]
        #[non_exhaustive]
        pub enum Refusal {
            $(#[doc = $words] $name,)*
            /// A refusal of a library newer than this crate, which has no name for it yet.
            #[non_exhaustive]
            Unknown {
                /// Its number, none of those above.
                number: u8,
            },
        }

        impl Refusal {
            /// The refusal of a number that has a name here, `None` for 0 and for a number that has none.
            ///
            /// ```
            /// use kiln::Refusal;
            ///
            /// assert_eq!(Refusal::of(12), Some(Refusal::FileEnds));
            /// assert_eq!(Refusal::of(0), None);
            /// assert_eq!(Refusal::of(22), None); // no refusal of this version
            /// assert!((1..=21).all(|n| Refusal::of(n).map(Refusal::number) == Some(n)));
            /// ```
            pub fn of(number: u8) -> Option<Refusal> {
                match number {
                    $($number => Some(Refusal::$name),)*
                    _ => None,
                }
            }

            /// The refusal number, 1 to 21, or whatever a newer library gave.
            ///
            /// ```
            /// use kiln::Refusal;
            ///
            /// assert_eq!(Refusal::Side.number(), 1);
            /// assert_eq!(Refusal::FileOutputShort.number(), 18);
            /// assert_eq!(Refusal::Slip.number(), 19);
            /// assert_eq!(Refusal::FileCount.number(), 20);
            /// assert_eq!(Refusal::NoTable.number(), 21);
            /// ```
            pub fn number(self) -> u8 {
                match self {
                    $(Refusal::$name => $number,)*
                    Refusal::Unknown { number } => number,
                }
            }

            /// The cause in words.
            ///
            /// ```
            /// assert_eq!(kiln::Refusal::Tariff.words(), "tariff above 99,999");
            /// ```
            pub fn words(self) -> &'static str {
                match self {
                    $(Refusal::$name => $words,)*
                    Refusal::Unknown { .. } => "a cause that this version of the crate has no words for",
                }
            }
        }
    };
}

refusals! {
    1 Side "a side of 0 or above 8"
    2 Tree "tree not of the form of a region tree"
    3 NumbersLength "coefficient slice not of the total length"
    4 CoefficientLimit "active coefficient past its limit"
    5 PassiveNotZero "passive place not 0"
    6 Point "point off the sheet"
    7 QuarterBox "box with no area, or past the sheet"
    8 Level "level not 1 to 3 (insert) or 0 to 3 (set, activity)"
    9 Function "set: index out of range or function passive"
    10 NumberLimit "set, fresh: number past its limit"
    11 Tariff "tariff above 99,999"
    12 FileEnds "file ends inside a head or body"
    13 FileTag "other tag than the one due"
    14 FileFieldLength "field length wrong"
    15 FileGoesOn "bytes after the last field"
    16 OutputLength "numbers or activity output not of the exact length"
    17 TreeOutputShort "tree output shorter than the tree"
    18 FileOutputShort "file output shorter than the file"
    19 Slip "the slip is not the one that this table gives for the slip's own box and level"
    20 FileCount "count in a file differs from the tree's"
    21 NoTable "no acceptable table over that tree has the grid's readings"
}

/// The refusal of any number that a call returned, [`Refusal::Unknown`] where it has no name here.
///
/// ```
/// use kiln::Refusal;
/// use std::num::NonZeroU8;
///
/// let refusal = |number| NonZeroU8::new(number).map(Refusal::from);
/// assert_eq!(refusal(0), None);
/// assert_eq!(refusal(12), Some(Refusal::FileEnds));
/// assert!(matches!(refusal(200), Some(Refusal::Unknown { number: 200, .. })));
/// ```
impl From<NonZeroU8> for Refusal {
    fn from(number: NonZeroU8) -> Refusal {
        Refusal::of(number.get()).unwrap_or(Refusal::Unknown { number: number.get() })
    }
}

impl fmt::Display for Refusal {
    fn fmt(&self, f: &mut fmt::Formatter<'_>) -> fmt::Result {
        write!(f, "refused {}: {}", self.number(), self.words())
    }
}

/// The words of [`Display`](fmt::Display), since this is what is shown when `main` returns an error.
impl fmt::Debug for Refusal {
    fn fmt(&self, f: &mut fmt::Formatter<'_>) -> fmt::Result {
        fmt::Display::fmt(self, f)
    }
}

impl Error for Refusal {}

#[cfg(test)]
mod tests {
    use super::Refusal;
    use std::num::NonZeroU8;

    // The first column of document 01's table of causes, in the order of its numbers, and document 02's words for 18
    // to 21.
    const CAUSES: [&str; 21] = [
        "a side of 0 or above 8",
        "tree not of the form above",
        "coefficient slice not of the total length",
        "active coefficient past its limit",
        "passive place not 0",
        "point off the sheet",
        "box with no area, or past the sheet",
        "level not 1 to 3 (insert) or 0 to 3 (set, activity)",
        "set: index out of range or function passive",
        "set, fresh: number past its limit",
        "tariff above 99,999",
        "file ends inside a head or body",
        "other tag than the one due",
        "field length wrong",
        "bytes after the last field",
        "numbers or activity output not of the exact length",
        "tree output shorter than the tree",
        "file output shorter than the file",
        "the slip is not the one that this table gives for the slip's own box and level",
        "a count differs from the tree's",
        "no acceptable table over that tree has those readings",
    ];

    fn of_any(number: u8) -> Refusal {
        Refusal::from(NonZeroU8::new(number).unwrap())
    }

    #[test]
    fn each_number_has_the_words_of_its_cause() {
        for (number, words) in (1..).zip(CAUSES) {
            // Away from the documents' text, "above", "a count" and "those" say too little.
            let words = words.replace("form above", "form of a region tree").replace("a count", "count in a file");
            let words = words.replace("those readings", "the grid's readings");
            assert_eq!(Refusal::of(number).map(Refusal::words), Some(&words[..]));
            assert_eq!(of_any(number).to_string(), format!("refused {number}: {words}"));
            assert_eq!(format!("{:?}", of_any(number)), format!("refused {number}: {words}"));
        }
    }

    #[test]
    fn a_number_without_a_name_is_an_error_value() {
        for number in 22..=u8::MAX {
            let refusal = of_any(number);
            assert_eq!(Refusal::of(number), None);
            assert_eq!(refusal, Refusal::Unknown { number });
            assert_eq!(refusal.number(), number);
            let shown = format!("refused {number}: a cause that this version of the crate has no words for");
            assert_eq!(refusal.to_string(), shown);
            assert_eq!(format!("{refusal:?}"), shown);
        }
        let error: Box<dyn std::error::Error> = of_any(99).into();
        assert_eq!(error.downcast_ref(), Some(&Refusal::Unknown { number: 99 }));
    }
}
