//! Document 02, W13: bridges.
mod common;

use common::{sample_set, set_of};
use corrector::{bridge, code, Refusal, MAX_MOVES};

/// The chain's letters, "" for none, lookups and floor.
#[track_caller]
fn bridges(set: &[u8], from: &str, to: &str, budget: u64, letters: &str, lookups: u64, floor: usize, stopped: bool) {
    let code = |kmer: &str| code(kmer.as_bytes()).expect("its letters have codes");
    let bridge = bridge(set, code(from), code(to), budget).expect("both ends are solid");
    assert_eq!(bridge.chain(), (!letters.is_empty()).then_some(letters.as_bytes()));
    assert_eq!((bridge.lookups, bridge.floor, bridge.stopped()), (lookups, floor, stopped));
}

#[test]
fn bridges_the_sample() {
    let set = sample_set();
    bridges(&set, "AAC", "CCG", u64::MAX, "TCCG", 40, 4, false);
    bridges(&set, "AAC", "CCG", 40, "TCCG", 40, 4, false);
    bridges(&set, "AAC", "CCG", 39, "TCCG", 36, 3, true);
    bridges(&set, "AAC", "CCG", 27, "TCCG", 24, 2, true);
    bridges(&set, "AAC", "CCG", 16, "TCCG", 16, 1, true);
    bridges(&set, "AAC", "CCG", 15, "", 12, 1, true);
    bridges(&set, "AAC", "CCG", 0, "", 0, 1, true);
}

/// Budgets about 4: a chain found on the last 4 lookups is found.
#[test]
fn stops_if_fewer_than_4_remain() {
    let set = sample_set();
    for budget in 0..4 {
        bridges(&set, "AAC", "ACT", budget, "", 0, 1, true);
    }
    for budget in 4..9 {
        bridges(&set, "AAC", "ACT", budget, "T", 4, 1, false);
    }
}

/// Floor 17 can come with the budget used up.
#[test]
fn says_that_there_is_none() {
    let set = sample_set();
    bridges(&set, "CCG", "AAC", 24, "", 24, 17, false);
    bridges(&set, "CCG", "AAC", 23, "", 20, 1, true);
    // The start is not compared, and AAC does not come again.
    bridges(&set, "AAC", "AAC", 1000, "", 40, 17, false);
}

/// A, C, T, G; the deep chain has 16 moves until a round finds a shorter one.
#[test]
fn goes_deep_in_the_order_of_the_codes() {
    let every = set_of(1, &[0, 3]);
    let sixteen = "AAAAAAAAAAAAAAAC";
    assert_eq!(sixteen.len(), MAX_MOVES);
    bridges(&every, "A", "C", 63, "", 60, 1, true);
    bridges(&every, "A", "C", 64, sixteen, 64, 1, true);
    bridges(&every, "A", "C", 68, "C", 68, 1, false);
    // Repeats are allowed.
    bridges(&set_of(3, &[0]), "AAA", "AAA", 4, "A", 4, 1, false);
    // T before G.
    let two = set_of(3, &[9, 12, 18, 36, 51, 54]);
    bridges(&two, "TGA", "CTC", 1000, "TCTC", 132, 4, false);
    bridges(&two, "TGA", "CTC", 131, "TCATCATCATCATCTC", 128, 4, true);
}

#[test]
fn refuses_ends_that_are_not_solid() {
    let set = sample_set();
    let refused = |from, to, end| assert_eq!(bridge(&set, from, to, 1000), Err(Refusal::NotSolid { end }));
    refused(0, 23, 0);
    refused(1, 0, 1);
    refused(0, 0, 0);
    // A code of 4^k or more never is.
    refused(64 + 1, 23, 0);
    refused(1, 64 + 23, 1);
    refused(u64::MAX, u64::MAX, 0);
    assert_eq!((Refusal::NotSolid { end: 1 }.number(), Refusal::NotSolid { end: 1 }.place()), (20, 1));
    // 7 to 10 come before.
    assert_eq!(bridge(b"", 0, 0, 0), Err(Refusal::SetLength));
    assert_eq!(bridge(&set[..512], 0, 0, 0), Err(Refusal::SetHeader));
    assert_eq!(bridge(&set_of(3, &[6, 6]), 0, 0, 0), Err(Refusal::SetKey { word: 1 }));
}

#[test]
fn codes_of_letters() {
    assert_eq!((code(b"AAC"), code(b"GTC"), code(b"uac")), (Some(1), Some(57), Some(33)));
    assert_eq!((code(b"AAN"), code(&[b'A'; 32]), code(b"")), (None, None, Some(0)));
    assert_eq!(code(&[b'G'; 31]), Some((1 << 62) - 1));
}
