//! Pick-up before drop (request A.6): pairs by name, and the bytes of a pair file, which are the same memory.

use std::mem::{align_of, offset_of, size_of, size_of_val};
use std::slice;

use crate::Refusal;

/// A passenger's two stops: `pick_up` is flown before `drop`, at once or with other stops between.
///
/// Two bytes, as a pair file has them. Any two may be handed in: what does not fit the job is refused
/// ([`Refusal::Pairs`]).
#[repr(C)]
#[derive(Clone, Copy, Debug, PartialEq, Eq, Hash)]
pub struct Pair {
    /// Where the passenger is fetched.
    pub pick_up: u8,
    /// Where the passenger is set down.
    pub drop: u8,
}

// Its two bytes in their sequence and nothing else: what `pair_file` and `pairs_of` rest on.
const _: () = assert!(size_of::<Pair>() == 2 && align_of::<Pair>() == 1);
const _: () = assert!(offset_of!(Pair, pick_up) == 0 && offset_of!(Pair, drop) == 1);

/// The bytes of the pairs' file: the same memory, and nothing is copied. The [`raw`](crate::raw) calls take these.
///
/// ```
/// # use gondamuy::*;
/// let pairs = [Pair { pick_up: 3, drop: 1 }, Pair { pick_up: 2, drop: 4 }];
/// assert_eq!(pair_file(&pairs), [3, 1, 2, 4]);
/// assert_eq!(pairs_of(pair_file(&pairs)), Ok(&pairs[..]));
/// ```
pub fn pair_file(pairs: &[Pair]) -> &[u8] {
    // SAFETY: a pair is two bytes in a row (above), and the borrow goes over.
    unsafe { slice::from_raw_parts(pairs.as_ptr().cast(), size_of_val(pairs)) }
}

/// The pairs of a pair file: the same memory, and nothing is copied. A file of odd length is refused, as a call of
/// [`raw`](crate::raw) refuses it; everything else is for [`plan`](crate::plan) and
/// [`first_order`](crate::first_order) to say.
///
/// ```
/// # use gondamuy::*;
/// assert_eq!(pairs_of(&[3, 1]), Ok(&[Pair { pick_up: 3, drop: 1 }][..]));
/// assert_eq!(pairs_of(&[]), Ok(&[][..]));
/// assert_eq!(pairs_of(&[3, 1, 2]), Err(Refusal::Pairs));
/// ```
pub fn pairs_of(file: &[u8]) -> Result<&[Pair], Refusal> {
    let pairs = file.len() / size_of::<Pair>();
    if pairs * size_of::<Pair>() != file.len() {
        return Err(Refusal::Pairs);
    }
    // SAFETY: any two bytes in a row are a pair (above), there are so many of them, and the borrow goes over.
    Ok(unsafe { slice::from_raw_parts(file.as_ptr().cast(), pairs) })
}
