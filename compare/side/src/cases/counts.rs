//! Counts that are offered with a set: as many as it has keys, of every kind, and other numbers of them.
use super::index::{any_job, any_site};
use super::{damage, room, Visit};
use crate::check::{any_counts, Site};
use crate::referee::calls::Job;
use crate::rng::Rng;

/// Lists of as many counts as there are keys: all equal, of each kind of number, and one that is smaller or larger than the others.
pub fn right(rng: &mut Rng, n: usize) -> Vec<Vec<u32>> {
    let words: Vec<u32> = (0..n).map(|_| rng.word() as u32).collect();
    let mut all = vec![
        vec![0; n],
        vec![u32::MAX; n],
        vec![7; n],
        words,
        (0..n).map(|_| *rng.pick(&[0, u32::MAX])).collect(),
        (0..n).map(|_| rng.below(4) as u32).collect(),
        (0..n as u32).collect(),
        (0..n as u32).rev().collect(),
        any_counts(rng, n),
    ];
    if n > 0 {
        for (one, others) in [(0, 1), (0, u32::MAX), (1, 0), (u32::MAX - 1, u32::MAX), (u32::MAX, 0)] {
            let mut counts = vec![others; n];
            counts[rng.below(n)] = one;
            all.push(counts);
        }
    }
    all
}

/// Lists of other lengths, none of them empty.
pub fn wrong(rng: &mut Rng, n: usize) -> Vec<Vec<u32>> {
    let lengths = [1, n.wrapping_sub(1), n + 1, n + 63, 2 * n, rng.within(1, 2 * n + 2)];
    let lengths = lengths.into_iter().filter(|length| ![0, n, usize::MAX].contains(length));
    lengths.map(|length| any_counts(rng, length)).collect()
}

fn keys_of(site: &Site) -> usize {
    site.opened.as_ref().map_or(1, |set| set.keys.len())
}

/// Each list with a call that is accepted, one whose output may be too short (16 comes before 11), one whose input may be refused; those of
/// other lengths with an index too, which is the set's or isn't (15 comes before 16). Then with the set damaged, which is told first.
pub fn offered(rng: &mut Rng, visit: &mut Visit) {
    let (site, genome) = any_site(rng);
    let (right, wrong) = (right(rng, keys_of(&site)), wrong(rng, keys_of(&site)));
    for counts in right.iter().chain(&wrong) {
        let offered = |job: &Job| Job { counts: counts.clone(), ..job.clone() };
        let accepted = any_job(rng, &genome);
        visit(&site, Some(&offered(&accepted)));
        room(&site, &accepted, rng, &mut |site, job| visit(site, job.map(offered).as_ref()));
        damage::input(rng, &genome, false, &mut |job| visit(&site, Some(&offered(job))));
    }
    for counts in wrong.iter().chain([&right[0]]) {
        let mut off = site.index().to_vec();
        off[rng.below(site.index().len())] ^= 1 << rng.below(8);
        for index in [site.index().to_vec(), off] {
            let job = any_job(rng, &genome);
            visit(&site, Some(&Job { index, counts: counts.clone(), ..job }));
        }
    }
    let mut turned = site.bytes.clone();
    turned[rng.below(site.bytes.len())] ^= 1 << rng.below(8);
    for site in [Site::new(damage::set(rng)), Site::new(turned), Site::new(Vec::new())] {
        for counts in [&right[0], rng.pick(&right)].into_iter().chain(wrong.first()) {
            let job = any_job(rng, &genome);
            visit(&site, Some(&Job { counts: counts.clone(), ..job }));
        }
    }
}
