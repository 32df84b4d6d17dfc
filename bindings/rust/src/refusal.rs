//! Why a call is refused.

use std::error::Error;
use std::fmt;

/// The enum, its numbers and its words from one table.
macro_rules! reasons {
    ($($number:literal $name:ident $words:literal,)+) => {
        /// Why a call is refused, with the numbers of `tinplateau.h`. `Mark`, `CutShort`, `WordLimit` and `FileLength` occur in a file's text only.
        #[non_exhaustive]
        #[repr(u32)]
        #[derive(Clone, Copy, Debug, PartialEq, Eq, Hash)]
        pub enum Reason {
            $(#[doc = concat!("Number ", $number, ": ", $words, ".")] $name = $number,)+
        }

        impl Reason {
            /// The reason of a number.
            pub const fn from_number(number: u32) -> Option<Reason> {
                match number {
                    $($number => Some(Reason::$name),)+
                    _ => None,
                }
            }

            const fn words(self) -> &'static str {
                match self {
                    $(Reason::$name => $words,)+
                }
            }
        }
    };
}

reasons! {
    1 ShareCount "n is not from 2 to 8",
    2 StringLength "k is not from 1 to 16",
    3 Modulus "q is too small",
    4 XCount "the list of Boolean shares, of x where there are two, has not exactly n words, or mn in a polynomial",
    5 YCount "the list of the shares of y has not exactly n words, or mn in a polynomial",
    6 XWidth "a Boolean share, of x where there are two, has a bit at k or above",
    7 YWidth "a share of y has a bit at k or above",
    8 WordCount "there are too few random words, or the buffer for them is too short",
    9 WordRange "a random word is not below q",
    10 OutputRoom "the output is too short",
    11 WorkRoom "the work area is too short",
    12 ValueWidth "an opened string has a bit at k or above",
    13 MaskCount "there are not exactly n - 1 masks",
    14 MaskWidth "a mask has a bit at k or above",
    15 ArithmeticCount "the list of arithmetic shares has not exactly n words",
    16 ArithmeticRange "an arithmetic share is not below q",
    17 ResidueRange "an opened residue is not below q",
    18 Mark "a lesson file has a mark that is not allowed where it stands",
    19 CutShort "a lesson file ends within a record or a sample",
    20 WordLimit "a lesson file's count of random words is above 1,792",
    21 FileLength "a lesson file has more than 60,000 bytes",
    22 SetNumber "no published parameter set has this number",
    23 CoefficientCount "m is not from 1 to 256",
    24 NoiseSet "the parameter set is published, but is not 1 or 2, which are ML-KEM's",
    25 NoiseLength "there are not n strings of 64 * k noise bytes",
    26 RecordRoom "there are too few bytes for the step records",
}

impl Reason {
    /// The number in `tinplateau.h`.
    pub const fn number(self) -> u32 {
        self as u32
    }
}

impl fmt::Display for Reason {
    fn fmt(&self, f: &mut fmt::Formatter<'_>) -> fmt::Result {
        f.write_str(self.words())
    }
}

/// A refused call. It changed nothing.
#[derive(Clone, Copy, Debug, PartialEq, Eq, Hash)]
pub struct Refusal {
    /// The first check that failed.
    pub reason: Reason,
    /// The position of what is unfit, counted from 0, where the function's description names one, and else 0.
    pub position: usize,
}

impl fmt::Display for Refusal {
    fn fmt(&self, f: &mut fmt::Formatter<'_>) -> fmt::Result {
        write!(f, "refused with {} at position {}: {}", self.reason.number(), self.position, self.reason)
    }
}

impl Error for Refusal {}
