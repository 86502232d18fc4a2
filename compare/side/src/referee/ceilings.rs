//! Demand 3: the most turns and lookups of a pass, for every set and every read.
use super::correctors::Method;
use super::set::Set;

/// The ceilings of a pass that is fed so many bases: 2 × W turns, and 1 + W × F lookups. Document 02, W6, has 24n for the demand's 30n. A pass
/// shorter than k adds nothing.
pub fn ceilings(set: &Set, method: Method, c: u8, fed: usize) -> (u64, u64) {
    if fed < set.k {
        return (0, 0);
    }
    let [k, n, w] = [set.k, set.keys.len(), fed - set.k].map(|count| count as u64);
    let c = c as u64;
    let f = match method {
        Method::One => 12 + 3 * c,
        Method::Two => 69 + 13 * c,
        Method::Graph => 6 + 24 * n,
        Method::GapSize => 17 + k + 3 * c + 24 * n,
    };
    (2 * w, 1 + w * f)
}
