//! Bridges: sets, ends and budgets.
use super::{damage, reads, sets};
use crate::check::Site;
use crate::referee::bridge::bridge;
use crate::referee::letters::mask;
use crate::rng::Rng;

pub struct Case<'a> {
    pub site: &'a Site,
    pub from: u64,
    pub to: u64,
    pub budget: u64,
}

/// A unit number that no other kind has.
const UNIT: u64 = 2 << 40;
const UNITS: u64 = 400;

/// So many budgets are tried one by one.
const EVERY: u64 = 240;

/// No search is longer: where every k-mer is solid, there are 4^16 chains.
const MOST_LOOKUPS: u64 = 40_000;

pub fn each(seed: u64, rounds: u64, visit: &mut dyn FnMut(&Case)) {
    for number in 0..4 {
        every_end(&sets::subset(1, number), visit);
    }
    for number in 0..UNITS * rounds {
        let rng = &mut Rng::of_unit(seed, UNIT | number);
        match number % 8 {
            0..=2 => {
                let site = small(rng);
                some_ends(rng, &site, 24, visit);
            }
            3 | 4 => {
                let k = sets::any_k(rng);
                let (site, _) = sets::periodic(rng, k);
                some_ends(rng, &site, 10, visit);
            }
            5 => refused(rng, visit),
            _ => {
                let k = sets::any_k(rng);
                let (site, genome) = sets::genome(rng, k);
                along(rng, &site, &genome, visit);
            }
        }
    }
    let rng = &mut Rng::of_unit(seed, UNIT | UNITS * rounds);
    let genome = reads::letters(rng, 200_000);
    along(rng, &sets::of_genomes(31, [genome.as_slice()]), &genome, visit);
}

fn small(rng: &mut Rng) -> Site {
    let k = *rng.pick(&[1, 3, 3, 3, 5, 5, 7]);
    if rng.percent(30) {
        return sets::up_to_two(3, rng.below(529));
    }
    sets::dense(rng, k)
}

/// Every pair of codes, those of 4^k to 4^k + 3 among them.
fn every_end(site: &Site, visit: &mut dyn FnMut(&Case)) {
    for from in 0..8 {
        for to in 0..8 {
            budgets(site, from, to, visit);
        }
    }
}

/// Pairs of codes, most of them solid, the same code now and then.
fn some_ends(rng: &mut Rng, site: &Site, count: usize, visit: &mut dyn FnMut(&Case)) {
    let Ok(set) = &site.opened else { return };
    let solid: Vec<u64> = if set.k <= 7 { (0..=mask(set.k)).filter(|code| set.solid(*code)).collect() } else { set.keys.clone() };
    if solid.is_empty() {
        return budgets(site, 0, 0, visit);
    }
    for _ in 0..count {
        let from = *rng.pick(&solid);
        let (near, any) = (walked(rng, site, from), *rng.pick(&solid));
        let to = *rng.pick(&[from, near, near, any]);
        budgets(site, from, to, visit);
    }
}

/// Where up to 18 moves to random solid successors lead.
fn walked(rng: &mut Rng, site: &Site, from: u64) -> u64 {
    let Ok(set) = &site.opened else { return from };
    let mut code = from;
    for _ in 0..rng.within(1, 18) {
        let next: Vec<u64> = (0..4).map(|nuc| (code << 2 | nuc) & mask(set.k)).filter(|next| set.solid(*next)).collect();
        if next.is_empty() {
            break;
        }
        code = *rng.pick(&next);
    }
    code
}

/// Ends that stand up to 20 bases apart in a genome, both ways.
fn along(rng: &mut Rng, site: &Site, genome: &[u8], visit: &mut dyn FnMut(&Case)) {
    let Ok(set) = &site.opened else { return };
    let code = |place: usize| genome[place..place + set.k].iter().fold(0, |code, byte| code << 2 | (*byte as u64 / 2 % 4));
    let last = genome.len() - set.k;
    for _ in 0..8 {
        let from = rng.below(last + 1);
        let to = (from + rng.within(0, 20)).min(last);
        budgets(site, code(from), code(to), visit);
        budgets(site, code(to), code(from), visit);
    }
}

/// Every budget up to a few beyond what the search takes, if that is small; else the first ones, some, and those about what it takes.
fn budgets(site: &Site, from: u64, to: u64, visit: &mut dyn FnMut(&Case)) {
    let most = bridge(&site.opened, from, to, MOST_LOOKUPS).map_or(0, |bridge| bridge.lookups);
    let mut try_one = |budget| visit(&Case { site, from, to, budget });
    (0..=EVERY.min(most + 8)).for_each(&mut try_one);
    if most > EVERY {
        (1..8).map(|part| EVERY + (most - EVERY) * part / 8).for_each(&mut try_one);
        (most.saturating_sub(5)..=most + 8).for_each(&mut try_one);
    }
    // A search that does not end within the limit is not asked for without one.
    if most + 8 < MOST_LOOKUPS {
        [1 << 20, 1 << 32, u64::MAX - 3, u64::MAX].into_iter().for_each(&mut try_one);
    }
}

/// Codes that are not solid or not below 4^k, and damaged sets.
fn refused(rng: &mut Rng, visit: &mut dyn FnMut(&Case)) {
    let sites = [small(rng), Site::new(damage::set(rng))];
    for site in &sites {
        let k = site.opened.as_ref().map_or(3, |set| set.k);
        let solid = site.opened.as_ref().map_or(0, |set| set.keys.first().copied().unwrap_or(0));
        let any = rng.word();
        for odd in [any, any & mask(k), solid | (mask(k) + 1), mask(k), mask(k) + 1, u64::MAX, solid | 1 << 63] {
            for (from, to) in [(odd, solid), (solid, odd), (odd, odd)] {
                visit(&Case { site, from, to, budget: rng.below(300) as u64 });
            }
        }
    }
}
