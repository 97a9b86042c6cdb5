//! The refusal numbers of documents 01 and 02 as an enum with words.
//! tests/refusals.rs compares numbers, names and words with docs/refusals.txt, where they stand for all parts of the guard.

use std::error::Error;
use std::fmt;

/// The enum, the list of all refusals and their words, from one row a refusal.
macro_rules! refusals {
    ($($(#[$note:meta])* $name:ident = $number:literal, $words:literal;)*) => {
        /// Why a call is refused: the first question of documents 01 and 02 that was answered no.
        #[derive(Clone, Copy, Debug, PartialEq, Eq, Hash, PartialOrd, Ord)]
        #[repr(u8)]
        pub enum Refusal {
            $($(#[$note])* $name = $number,)*
        }

        impl Refusal {
            /// All refusals, by their number.
            pub const ALL: [Refusal; [$($number),*].len()] = [$(Refusal::$name),*];

            /// What was refused, in short.
            pub fn words(self) -> &'static str {
                match self {
                    $(Refusal::$name => $words,)*
                }
            }
        }
    };
}

refusals! {
    RecordTooShort = 1, "the policy record is shorter than 8 bytes";
    SizeOutOfRange = 2, "V or F is out of range";
    CountOutOfRange = 3, "n, e or the number of devices is out of range";
    RecordLength = 4, "the length of the policy record or of an array does not fit n";
    ListedPage = 5, "a listed page is out of range or out of order";
    ListedFrame = 6, "a listed frame is out of range";
    StateOrTable = 7, "the state or the length of a table does not fit";
    LengthOutOfRange = 8, "the length is out of range";
    DoesNotExist = 9, "the thing named does not exist";
    WrongMode = 10, "the mode does not suit the call";
    NotPresent = 11, "a touched page is not present";
    NotPermitted = 12, "a touched page does not permit it";
    Excluded = 13, "a touched frame is excluded";
    /// The drill program's: no call of the library gives it.
    CallCutShort = 14, "the last call is cut short";
    /// The drill program's: no call of the library gives it.
    UnknownKind = 15, "the kind of call is unknown";
    BufferTooShort = 16, "the buffer is shorter than the record";
    Tree = 17, "the tree's run, depth or root does not fit";
    NoDevice = 18, "the device is not in the list";
    OutsideWindow = 19, "the transfer is outside the device's window";
    ApprovalConflict = 20, "a pair is pending, the page is approved or the frame is excluded";
    MappedWritable = 21, "a present shadow entry maps the frame writable";
    NothingPending = 22, "no pair is pending";
}

impl Refusal {
    /// The number of the question.
    pub fn number(self) -> u8 {
        self as u8
    }

    /// The refusal with a number, if there is one.
    pub fn from_number(number: u64) -> Option<Refusal> {
        let place = usize::try_from(number).ok()?.checked_sub(1)?;
        Refusal::ALL.get(place).copied()
    }
}

impl fmt::Display for Refusal {
    fn fmt(&self, f: &mut fmt::Formatter) -> fmt::Result {
        write!(f, "refused with {}: {}", self.number(), self.words())
    }
}

impl Error for Refusal {}
