//! The sizes of documents 01 and 02 by name.

/// Raised with every change of a call, of a struct, of what a number means or of what comes back, as `GONDAMUY_VERSION` is.
pub const VERSION: u32 = 8;

/// Stops of a day at most.
pub const MOST_STOPS: usize = 16;

/// Home and the stops.
pub const PLACES: usize = MOST_STOPS + 1;

/// Numbers of the largest table: its legs, and a landing charge for each place.
pub const TABLE_NUMBERS: usize = PLACES * PLACES;

/// Stops of the longest order.
pub const ORDER_PLACES: usize = MOST_STOPS;

/// What a leg may cost at most.
pub const DEAREST_LEG: u32 = 1_000_000;

/// What a landing may cost at most (request A.4).
pub const DEAREST_CHARGE: u32 = 100_000;

/// Words in a record of the pool.
pub const RECORD_WORDS: usize = 6;

/// Pairs of a job at most (request A.6).
pub const MOST_PAIRS: usize = 8;

/// Bytes of the longest pair file.
pub const MOST_PAIR_BYTES: usize = 2 * MOST_PAIRS;

/// Bytes of the longest job file: a buffer that every job's file fits.
pub const LONGEST_FILE: usize = 4 * TABLE_NUMBERS + ORDER_PLACES + 13;
