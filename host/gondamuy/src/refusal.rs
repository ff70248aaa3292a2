//! Refusals: their numbers and what they say.

use std::error::Error;
use std::fmt;

/// Why a call gave nothing. More may come with later versions.
#[derive(Clone, Copy, Debug, PartialEq, Eq, Hash)]
#[non_exhaustive]
#[repr(u32)]
pub enum Refusal {
    /// 1: the number of stops is 0 or above 16.
    Stops = 1,
    /// 2: the table's length does not fit the number of stops.
    TableLength = 2,
    /// 3: a leg costs more than [`DEAREST_LEG`](crate::DEAREST_LEG), or a landing more than
    /// [`DEAREST_CHARGE`](crate::DEAREST_CHARGE). Each number is looked at by itself: the two together may cost more.
    Leg = 3,
    /// 4: an unknown selection, rule or bound. A file or a [`raw`](crate::raw) call may have one, a [`Job`](crate::Job)
    /// has none.
    Choice = 4,
    /// 5: the starting order leaves a stop out, has one twice or one that is not there, or is against the pairs: it has
    /// a drop before its pick-up. Hand in another, or none. It is held to the pairs only where they are not refused
    /// themselves.
    Start = 5,
    /// 6: the pool has no record, or one that is not whole.
    Pool = 6,
    /// 7: the pool is full. Lend more records, or search in fewer, if longer: depth first, with [`UPPER_COST`], the
    /// close bound and a starting order.
    ///
    /// [`UPPER_COST`]: crate::Rules::UPPER_COST
    Full = 7,
    /// 8: the file is too short for a job file.
    ShortFile = 8,
    /// 9: the file is not laid out as a job file.
    Layout = 9,
    /// 10: the buffer is too short for the job's file. [`LONGEST_FILE`](crate::LONGEST_FILE) bytes are always enough.
    ShortBuffer = 10,
    /// 11: there are more than [`MOST_PAIRS`](crate::MOST_PAIRS) pairs, or a stop in them is not there or stands in
    /// them twice; or their file is of odd length, which no [`Pair`](crate::Pair)s are. It comes between 5 and 6.
    Pairs = 11,
}

impl Refusal {
    /// All of them, by number from 1 on.
    const ALL: [Refusal; 11] = [
        Refusal::Stops,
        Refusal::TableLength,
        Refusal::Leg,
        Refusal::Choice,
        Refusal::Start,
        Refusal::Pool,
        Refusal::Full,
        Refusal::ShortFile,
        Refusal::Layout,
        Refusal::ShortBuffer,
        Refusal::Pairs,
    ];

    /// The refusal of a number, if there is one.
    pub fn of(number: u32) -> Option<Refusal> {
        Refusal::ALL.into_iter().find(|refusal| refusal.number() == number)
    }

    /// What the number of a [`raw`](crate::raw) answer says: 0 that it is one, any other that it is refused.
    ///
    /// # Panics
    ///
    /// Where there is no such refusal. No call answers that, but for one of another version of the library.
    pub fn check(number: u32) -> Result<(), Refusal> {
        match (number, Refusal::of(number)) {
            (0, _) => Ok(()),
            (_, Some(refusal)) => Err(refusal),
            (_, None) => panic!("no refusal has the number {number}: the library is of another version"),
        }
    }

    /// Its number.
    pub const fn number(self) -> u32 {
        self as u32
    }

    /// What it says, in words.
    pub const fn words(self) -> &'static str {
        match self {
            Refusal::Stops => "the number of stops is 0 or above 16",
            Refusal::TableLength => "the table's length is not (n+1) squared",
            Refusal::Leg => "a leg is above 1,000,000 or a landing charge is above 100,000",
            Refusal::Choice => "selection is above 3, rules above 15 or bound above 3",
            Refusal::Start => {
                "the starting order is neither empty nor a permutation of 1 to n, or is against the pairs"
            }
            Refusal::Pool => "the pool has no whole record, or a part record",
            Refusal::Full => "the pool is full",
            Refusal::ShortFile => "the file is shorter than 13 bytes",
            Refusal::Layout => "the file's length or its places are not those of a job file",
            Refusal::ShortBuffer => "the write buffer is shorter than the file",
            Refusal::Pairs => {
                "the pairs' length is odd or above 16, or a stop in them is outside 1 to n or stands there twice"
            }
        }
    }
}

/// Its number and its words.
///
/// ```
/// assert_eq!(gondamuy::Refusal::Full.to_string(), "refused 7: the pool is full");
/// ```
impl fmt::Display for Refusal {
    fn fmt(&self, out: &mut fmt::Formatter) -> fmt::Result {
        write!(out, "refused {}: {}", self.number(), self.words())
    }
}

impl Error for Refusal {}
