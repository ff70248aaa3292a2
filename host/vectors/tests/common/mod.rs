//! What the tests of the calls with pairs share.

/// Each pair's first stop stands before its second.
pub fn in_front(pairs: &[u8], order: &[u8]) -> bool {
    let place = |stop| order.iter().position(|&s| s == stop).unwrap();
    pairs.chunks(2).all(|pair| place(pair[0]) < place(pair[1]))
}
