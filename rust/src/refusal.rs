//! Refusals, their words, and how the library's answers carry them.

use std::error::Error;
use std::fmt;

use crate::ffi::{Planned, ReadPlan, Transferred, Written};

/// A refusal of documents 01 and 02 with its second number, which is 0 where they name none.
#[derive(Clone, Copy, Debug, PartialEq, Eq)]
pub struct Refusal {
    pub number: u32,
    pub second: u32,
}

impl Refusal {
    /// A refusal without a second number.
    pub fn plain(number: u32) -> Self {
        Refusal { number, second: 0 }
    }

    /// Refuses unless the test holds.
    pub fn unless(test: bool, number: u32) -> Result<(), Self> {
        if test {
            Ok(())
        } else {
            Err(Refusal::plain(number))
        }
    }
}

/// The words for a refusal: what it is about, what is wrong with that, and what the second
/// number counts, if there is one.
#[derive(Clone, Copy)]
struct Words {
    subject: &'static str,
    fault: &'static str,
    second: Option<&'static str>,
}

/// Words for a refusal without a second number.
const fn words(subject: &'static str, fault: &'static str) -> Words {
    Words {
        subject,
        fault,
        second: None,
    }
}

/// Words for a refusal whose second number counts these.
const fn words_of_a(second: &'static str, subject: &'static str, fault: &'static str) -> Words {
    Words {
        second: Some(second),
        ..words(subject, fault)
    }
}

/// The words for each refusal, from number 1 on.
const WORDS: [Words; 17] = [
    words("a number of the rack", "is out of range"),
    words("list length", "is no multiple of 8"),
    words("the list", "has more than 1024 records"),
    words_of_a("record", "film number", "is outside 1 to 65535"),
    words_of_a("record", "demand", "is outside 0 to 1000000"),
    words_of_a("record", "film", "is in the list twice"),
    words("a lent table, list or rack", "is too short"),
    words("the text", "has more than 65536 bytes"),
    words_of_a(
        "line",
        "no plan text",
        "has this line after the lines before it",
    ),
    words("the plan in the tables", "is not well formed"),
    words("the space for the text", "is too short"),
    words("the number of disks, or a disk,", "is out of range"),
    words_of_a(
        "disk",
        "the ratio of streams to slots",
        "is not that of disk 1",
    ),
    words("the old or the new plan", "has more than 8 disks"),
    words("the first lines", "of the old and the new plan differ"),
    words_of_a("record", "film number", "is above 49999, a service clip"),
    words(
        "the rack or the list",
        "has more than the terminal's 8 disks or 96 records",
    ),
];

impl Refusal {
    /// The words for the refusal's number.
    fn words(self) -> Words {
        let at = (self.number as usize).checked_sub(1);
        let known = at.and_then(|at| WORDS.get(at));
        *known.unwrap_or(&words("the call", "has a refusal without words"))
    }

    /// The refusal's numbers in brackets, as in `(refused 6, record 2)`.
    pub fn numbers(self) -> String {
        match self.words().second {
            Some(second) => format!("(refused {}, {second} {})", self.number, self.second),
            None => format!("(refused {})", self.number),
        }
    }

    /// The refusal in words with the value that it is about, as in
    /// `film 110 is in the list twice (refused 6, record 2)`.
    pub fn about(self, value: u64) -> String {
        let Words { subject, fault, .. } = self.words();
        format!("{subject} {value} {fault} {}", self.numbers())
    }
}

impl fmt::Display for Refusal {
    /// The refusal in words, as in `film is in the list twice (refused 6, record 2)`.
    fn fmt(&self, out: &mut fmt::Formatter) -> fmt::Result {
        let Words { subject, fault, .. } = self.words();
        write!(out, "{subject} {fault} {}", self.numbers())
    }
}

impl Error for Refusal {}

macro_rules! may_refuse {
    ($($answer:ty),*) => {$(
        impl From<Refusal> for $answer {
            /// The refused answer: zero but for the two numbers.
            fn from(refusal: Refusal) -> Self {
                Self { number: refusal.number, second: refusal.second, ..Self::default() }
            }
        }

        impl $answer {
            /// The answer itself where nothing was refused.
            pub fn accepted(self) -> Result<Self, Refusal> {
                match self.number {
                    0 => Ok(self),
                    number => Err(Refusal { number, second: self.second }),
                }
            }
        }
    )*};
}

may_refuse!(Planned, Written, ReadPlan, Transferred);
