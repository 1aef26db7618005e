//! Why there is no answer.

/// Why a call has no answer. No word of a message was loaded.
#[derive(Debug, Clone, Copy, PartialEq, Eq)]
#[non_exhaustive]
pub enum Error {
    /// Arguments or cells are more or fewer than the entry point's, or one is too wide; or an image isn't of the format that a
    /// file of td-header was made of.
    Unfit,
    /// The handle holds nothing.
    Closed,
    /// There was no memory.
    NoMemory,
    /// The code has no such entry point, part or name, the last failure no such frame; or there is no such code.
    Missing,
    /// The message doesn't lie within the words.
    Past,
    /// What has to be two handles is one.
    Pointer,
    /// A message of more than 64 stretches, or of 2^32 bytes and more; more than 17 codes.
    TooMuch,
    /// The bytes are no image: I1 to I6 of docs/language/images.md, the place, and for I6 the verifier's rule.
    Image {
        /// 1 to 6, for I1 to I6.
        code: u8,
        /// The byte, for I3 to I5; the instruction, for I6.
        place: u64,
        /// 1 to 7, for V1 to V7, if the code is 6; else 0.
        rule: u32,
    },
    /// A number that this version of the library has no name for.
    Other(i32),
}

impl Error {
    pub(crate) fn of(code: i32) -> Error {
        match code {
            2 => Error::Unfit,
            3 => Error::Closed,
            4 => Error::NoMemory,
            5 => Error::Missing,
            6 => Error::Past,
            7 => Error::Pointer,
            8 => Error::TooMuch,
            code => Error::Other(code),
        }
    }

    pub(crate) fn of_image(code: i32, fault: &crate::raw::Fault) -> Error {
        match code {
            11..=16 => Error::Image { code: (code - 10) as u8, place: fault.place, rule: fault.rule },
            code => Error::of(code),
        }
    }
}

impl core::fmt::Display for Error {
    fn fmt(&self, f: &mut core::fmt::Formatter<'_>) -> core::fmt::Result {
        match self {
            Error::Unfit => f.write_str("arguments or cells don't fit the entry point"),
            Error::Closed => f.write_str("the handle holds nothing"),
            Error::NoMemory => f.write_str("no memory"),
            Error::Missing => f.write_str("there is none"),
            Error::Past => f.write_str("the message doesn't lie within the words"),
            Error::Pointer => f.write_str("two handles are one"),
            Error::TooMuch => f.write_str("too many stretches, bytes or codes"),
            Error::Image { code: 6, place, rule } => write!(f, "the verifier refuses the code: V{rule} at instruction {place}"),
            Error::Image { code: code @ 1..=2, .. } => write!(f, "no image: I{code}"),
            Error::Image { code, place, .. } => write!(f, "no image: I{code} at byte {place}"),
            Error::Other(code) => write!(f, "answer {code}"),
        }
    }
}

impl core::error::Error for Error {}

/// Why a message was rejected.
#[derive(Debug, Clone, Copy, PartialEq, Eq)]
pub enum Reason {
    /// The message ends too early.
    NotEnough,
    /// A case that the format hasn't.
    Impossible,
    /// An array whose size its elements don't fill.
    ListSize,
    /// An action that refused.
    Action,
    /// A value that a constraint refuses.
    Constraint,
    /// Bytes that have to be zero and aren't.
    Padding,
}

impl Reason {
    pub(crate) fn of(number: u32) -> Option<Reason> {
        use Reason::*;
        [NotEnough, Impossible, ListSize, Action, Constraint, Padding].get(number as usize).copied()
    }

    /// The word of reports.
    pub fn word(self) -> &'static str {
        match self {
            Reason::NotEnough => "notenough",
            Reason::Impossible => "impossible",
            Reason::ListSize => "listsize",
            Reason::Action => "action",
            Reason::Constraint => "constraint",
            Reason::Padding => "padding",
        }
    }
}

/// The verdict on a message.
#[derive(Debug, Clone, Copy, PartialEq, Eq)]
pub enum Verdict {
    /// The message is accepted, up to this byte.
    Accepted {
        /// The byte behind the last one that was taken.
        position: u32,
    },
    /// The message is rejected.
    Rejected {
        /// Why.
        reason: Reason,
        /// The byte at which it failed.
        position: u32,
    },
}

/// What an accepted message delivers, by a file of td-header.
#[derive(Debug, Clone, Copy, PartialEq, Eq)]
pub struct Accepted<T> {
    /// The byte behind the last one that was taken.
    pub position: u32,
    /// How many words were loaded, each once.
    pub load_count: u64,
    /// Records, numbers and copies.
    pub delivers: T,
}

/// Why a message delivers nothing, by a file of td-header.
#[derive(Debug, Clone, Copy, PartialEq, Eq)]
pub enum No {
    /// The message is rejected.
    Rejected {
        /// Why.
        reason: Reason,
        /// The byte at which it failed.
        position: u32,
    },
    /// The call was wrong, and no word was loaded.
    Wrong(Error),
}

impl From<Error> for No {
    fn from(error: Error) -> No {
        No::Wrong(error)
    }
}
