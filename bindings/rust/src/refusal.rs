//! Why a call is turned down.

use std::{error, fmt};

macro_rules! refusals {
    ($($name:ident = $number:literal, $text:literal;)*) => {
        /// Why a call is turned down. Its number is the one that docs/REFUSALS.md explains.
        #[derive(Clone, Copy, Debug, PartialEq, Eq, Hash)]
        #[repr(u8)]
        pub enum Refusal {
            $(#[doc = $text] $name = $number,)*
        }

        impl Refusal {
            /// Every refusal, by number from 1.
            pub const ALL: [Refusal; 36] = [$(Refusal::$name,)*];

            /// The words of the support sheet for it.
            pub fn text(self) -> &'static str {
                match self {
                    $(Refusal::$name => $text,)*
                }
            }
        }
    };
}

refusals! {
    TruncatedHeader = 1, "Short head";
    BadMagic = 2, "Wrong mark";
    TruncatedBody = 3, "Short body";
    FieldPastEnd = 4, "Field cut";
    PartialPaletteEntry = 5, "Uneven palette";
    NonEmptyEnd = 6, "Stuffed END";
    ZeroLengthSegment = 7, "Standing still";
    PcsInOpenSet = 8, "Double opening";
    WdsOutsideSet = 9, "Early WDS";
    PdsOutsideSet = 10, "Early PDS";
    OdsOutsideSet = 11, "Early ODS";
    SecondWds = 12, "Second WDS";
    EndOutsideSet = 13, "Early END";
    UnknownOutsideSet = 14, "Stray kind";
    UnterminatedSet = 15, "Unended set";
    FirstFragmentWhileOpen = 16, "Reopened chain";
    DuplicateObject = 17, "Twin object";
    FragmentWithoutFirst = 18, "Loose fragment";
    FragmentAfterLast = 19, "Late fragment";
    UnterminatedObject = 20, "Open chain";
    DeclaredLengthTooSmall = 21, "Tiny length";
    DeclaredLengthMismatch = 22, "Unequal length";
    TooManyObjects = 23, "Crowded set";
    RunPastWidth = 24, "Overrun";
    TruncatedEscape = 25, "Bare escape";
    TruncatedLongZeroRun = 26, "Cut long zero run";
    TruncatedShortColorRun = 27, "Cut short colour run";
    TruncatedLongColorRun = 28, "Cut long colour run";
    ShortLine = 29, "Short line";
    TooManyLines = 30, "Extra line";
    PartialLastLine = 31, "Ragged end";
    LineCountMismatch = 32, "Line count";
    ObjectNotInSet = 33, "Absent object";
    BufferTooSmall = 34, "Small slate";
    NotEncodable = 35, "Unwritable";
    NoSuchSet = 36, "No such set";
}

impl Refusal {
    /// Its number, 1 to 36.
    pub fn number(self) -> u8 {
        self as u8
    }

    /// The refusal with this number.
    pub fn of_number(number: u8) -> Option<Refusal> {
        let at = usize::from(number).checked_sub(1)?;
        Refusal::ALL.get(at).copied()
    }
}

/// The text and the number: `Short head (1)`.
impl fmt::Display for Refusal {
    fn fmt(&self, f: &mut fmt::Formatter) -> fmt::Result {
        write!(f, "{} ({})", self.text(), self.number())
    }
}

impl error::Error for Refusal {}

/// The answer of a function of the library: 0, or a refusal's number.
pub(crate) fn accepted(answer: u8) -> crate::Result<()> {
    match answer {
        0 => Ok(()),
        number => Err(Refusal::of_number(number).expect("a number from 0 to 36")),
    }
}
