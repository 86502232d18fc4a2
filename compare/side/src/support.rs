//! What supports a call's corrections, part by part: to see that a run tells apart the right support and one that leaves a part out.
use crate::referee::driver::Pass;

#[derive(Clone, Copy, Debug)]
pub enum Part {
    /// The k-mers that scenarios tried.
    Tried,
    /// The first k-mers of walks, x.
    First,
    /// Those between the first and the last.
    Between,
    /// The last ones.
    Last,
    /// All corrections of a pass but the last.
    EarlierMends,
    /// All but the first.
    LaterMends,
    /// All passes of a read but the last.
    EarlierPasses,
    /// All but the first.
    LaterPasses,
    /// All reads of a call but the last.
    EarlierReads,
    /// All but the first.
    LaterReads,
}

#[rustfmt::skip]
pub const PARTS: [Part; 10] = {
    use Part::*;
    [Tried, First, Between, Last, EarlierMends, LaterMends, EarlierPasses, LaterPasses, EarlierReads, LaterReads]
};

/// A thing's place among several.
#[derive(Clone, Copy)]
struct Place {
    first: bool,
    last: bool,
}

/// A key that supports a correction: its k-mer's place among the correction's, and so on up to the read's among the call's.
struct Evidence {
    key: usize,
    kmer: Place,
    mend: Place,
    pass: Place,
    read: Place,
}

impl Part {
    fn has(self, of: &Evidence) -> bool {
        let walk = !(of.kmer.first && of.kmer.last);
        match self {
            Part::Tried => !walk,
            Part::First => walk && of.kmer.first,
            Part::Between => !of.kmer.first && !of.kmer.last,
            Part::Last => walk && of.kmer.last,
            Part::EarlierMends => !of.mend.last,
            Part::LaterMends => !of.mend.first,
            Part::EarlierPasses => !of.pass.last,
            Part::LaterPasses => !of.pass.first,
            Part::EarlierReads => !of.read.last,
            Part::LaterReads => !of.read.first,
        }
    }
}

fn placed<T>(all: &[T]) -> impl Iterator<Item = (Place, &T)> {
    all.iter().enumerate().map(|(at, one)| (Place { first: at == 0, last: at + 1 == all.len() }, one))
}

fn evidence(passes: &[Vec<Pass>]) -> Vec<Evidence> {
    let mut all = Vec::new();
    for (read, passes) in placed(passes) {
        for (pass, made) in placed(passes) {
            for (mend, keys) in placed(&made.evidence) {
                all.extend(placed(keys).map(|(kmer, key)| Evidence { key: *key, kmer, mend, pass, read }));
            }
        }
    }
    all
}

/// For each part whether a call with these counts would tell another support without it.
pub fn parts_that_tell(passes: &[Vec<Pass>], counts: &[u32]) -> [bool; PARTS.len()] {
    let all = evidence(passes);
    let least = |kept: &dyn Fn(&Evidence) -> bool| all.iter().filter(|of| kept(of)).map(|of| counts[of.key]).min();
    let told = least(&|_| true);
    PARTS.map(|part| least(&|of| !part.has(of)) != told)
}
