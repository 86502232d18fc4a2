//! Sheets of other programs' edits: right ones of every kind, ones of our own corrections, each way to break them, and any numbers.
use super::index::any_site;
use super::{any_entry, damage, reads};
use crate::check::Site;
use crate::referee::calls::{passes_of, Entry, MOST_INPUT};
use crate::referee::edits::Sheet;
use crate::rng::Rng;
use crate::set_file;

/// Who made a sheet.
#[derive(Clone, Copy, Debug, PartialEq, Eq)]
pub enum Maker {
    Partner,
    Ours,
}

/// Takes the sheets, each with its set.
pub type Visit<'a> = dyn FnMut(&Site, &Sheet, Maker) + 'a;

/// A unit number that no other kind has.
const UNIT: u64 = 1 << 43;
const UNITS: u64 = 12_000;

/// Unlikely numbers: near 2^64, and those that a sum of 64 bits brings back.
const FAR: [u64; 6] = [u64::MAX, u64::MAX - 1, u64::MAX - 3, 1 << 63, 1 << 32, (1 << 63) - 1];

pub fn each(seed: u64, rounds: u64, visit: &mut Visit) {
    for number in 0..UNITS * rounds {
        let rng = &mut Rng::of_unit(seed, UNIT | number);
        match number % 4 {
            0 | 1 => partners(rng, visit),
            2 => ours(rng, visit),
            _ => any(rng, visit),
        }
    }
    limits(visit);
}

/// A part of a genome mended by a partner: accepted where its k-mers are solid. Then broken in every way, one at a time, some twice over; and with a set
/// that may be refused.
fn partners(rng: &mut Rng, visit: &mut Visit) {
    let (site, genome) = any_site(rng);
    let k = site.opened.as_ref().map_or(1, |set| set.k);
    let other = Site::new(damage::set(rng));
    for _ in 0..3 {
        let sheet = right(rng, k, &genome);
        visit(&site, &sheet, Maker::Partner);
        for _ in 0..8 {
            let mut broken = sheet.clone();
            break_one(rng, k, &mut broken);
            if rng.percent(30) {
                break_one(rng, k, &mut broken);
            }
            visit(&site, &broken, Maker::Partner);
            visit(&other, &broken, Maker::Partner);
        }
    }
}

/// A sheet whose edits turn a read into a part of the genome: of any number of bases taken and letters given, none too, touching or apart.
fn right(rng: &mut Rng, k: usize, genome: &[u8]) -> Sheet {
    let mut mended = genome[rng.below(genome.len())..].to_vec();
    mended.truncate(rng.within(0, 200));
    match rng.below(6) {
        0 => mended = reads::in_ten_letters(rng, mended),
        1 => mended = reads::with_unknown(rng, mended),
        _ => {}
    }
    let (often, mut at) = (*rng.pick(&[2, 10, 30, 70]), k.min(mended.len()));
    let mut sheet = Sheet { read: mended[..at].to_vec(), mended, ..Sheet::default() };
    // An edit that takes nothing has its position for itself.
    let mut free = true;
    while at < sheet.mended.len() {
        // The last base is kept.
        let given = rng.below(4).min(sheet.mended.len() - at - 1);
        if free && rng.percent(often) {
            let taken = rng.below(4);
            sheet.numbers.extend([sheet.read.len() as u64, taken as u64, given as u64]);
            sheet.letters.extend_from_slice(&sheet.mended[at..at + given]);
            sheet.read.extend((0..taken).map(|_| if rng.percent(10) { rng.byte() } else { rng.letter() }));
            (at, free) = (at + given, taken > 0);
        } else {
            sheet.read.push(sheet.mended[at]);
            (at, free) = (at + 1, true);
        }
    }
    sheet
}

/// One change, in one of the four lists.
fn break_one(rng: &mut Rng, k: usize, sheet: &mut Sheet) {
    match rng.below(10) {
        0..=4 => break_numbers(rng, k, sheet),
        5 => break_list(rng, &mut sheet.letters),
        6 | 7 => break_list(rng, &mut sheet.mended),
        8 => break_list(rng, &mut sheet.read),
        _ => std::mem::swap(&mut sheet.read, &mut sheet.mended),
    }
}

/// A byte more, fewer, another; the same letter in the other case.
fn break_list(rng: &mut Rng, list: &mut Vec<u8>) {
    let byte = *rng.pick(b"ACGTNacgt");
    if list.is_empty() || rng.percent(15) {
        list.insert(rng.below(list.len() + 1), byte);
        return;
    }
    let at = rng.below(list.len());
    match rng.below(8) {
        0 => drop(list.pop()),
        1 => list.push(byte),
        2 => drop(list.remove(at)),
        3 => list.clear(),
        4 => list[at] ^= 32,
        _ => list[at] = byte,
    }
}

fn break_numbers(rng: &mut Rng, k: usize, sheet: &mut Sheet) {
    let (numbers, length) = (&mut sheet.numbers, sheet.read.len() as u64);
    let edits = numbers.len() / 3;
    if edits == 0 || rng.percent(20) {
        // Numbers that make no edit; an edit that takes and gives nothing, put in anywhere.
        match rng.below(3) {
            0 => numbers.push(rng.below(300) as u64),
            1 => numbers.extend([length / 2, 0]),
            _ => {
                let place = 3 * rng.below(edits + 1);
                let position = rng.within(k, k.max(sheet.read.len())) as u64;
                drop(numbers.splice(place..place, [position, 0, 0]));
            }
        }
        return;
    }
    let place = rng.below(edits);
    let (at, last) = (3 * place, 3 * place.saturating_sub(1));
    let (position, taken, given) = (numbers[at], numbers[at + 1], numbers[at + 2]);
    let before = (numbers[last], numbers[last].wrapping_add(numbers[last + 1]));
    let far = *rng.pick(&FAR);
    match rng.below(20) {
        0 => numbers.truncate(3 * edits - 1),
        1 => numbers.truncate(3 * edits - 2),
        2 => drop(numbers.drain(at..at + 3)),
        3 => numbers.extend_from_within(at..at + 3),
        4 => (0..3).for_each(|i| numbers.swap(at + i, last + i)),
        5 => numbers[at] = position.wrapping_sub(1),
        6 => numbers[at] = position.wrapping_add(1),
        7 => numbers[at] = *rng.pick(&[k as u64 - 1, k as u64, 0, length, length.wrapping_sub(1)]),
        8 => numbers[at] = *rng.pick(&[before.0, before.1, before.1.wrapping_sub(1), before.0.wrapping_add(1)]),
        9 => numbers[at] = far,
        10 => numbers[at + 1] = taken.wrapping_add(1),
        11 => numbers[at + 1] = taken.wrapping_sub(1),
        12 => numbers[at + 1] = length.wrapping_sub(position).wrapping_sub(rng.below(3) as u64),
        13 => numbers[at + 1] = 0_u64.wrapping_sub(position).wrapping_add(rng.below(8) as u64),
        14 => numbers[at + 1] = far,
        15 => numbers[at + 2] = given.wrapping_add(1),
        16 => numbers[at + 2] = given.wrapping_sub(1),
        17 => numbers[at + 2] = 0_u64.wrapping_sub(rng.below(8) as u64),
        18 => numbers[at + 2] = far,
        _ => numbers[at + rng.below(3)] = rng.below(200) as u64,
    }
}

/// Corrections of our own, told as one edit and as many. They need not pass.
fn ours(rng: &mut Rng, visit: &mut Visit) {
    let (site, genome) = any_site(rng);
    let Ok(set) = &site.opened else { return };
    for _ in 0..6 {
        let read = if rng.percent(20) { reads::in_set(rng, &site) } else { reads::noisy(rng, &genome, 120) };
        let [method, confirm] = any_entry(rng);
        let passes = passes_of(set, &[Entry { method, confirm }], &read);
        let mended = passes.last().map_or(read.clone(), |pass| pass.bytes.clone());
        for sheet in [one_edit(&read, &mended), smallest_edits(&read, &mended)] {
            visit(&site, &sheet, Maker::Ours);
            let mut broken = sheet;
            break_one(rng, set.k, &mut broken);
            visit(&site, &broken, Maker::Partner);
        }
    }
}

/// What lies between the bases that both reads begin with and those that both end with.
fn one_edit(read: &[u8], mended: &[u8]) -> Sheet {
    let same = |(a, b): &(&u8, &u8)| a == b;
    let front = read.iter().zip(mended).take_while(same).count();
    let back = read[front..].iter().rev().zip(mended[front..].iter().rev()).take_while(same).count();
    let (taken, letters) = (read.len() - front - back, mended[front..mended.len() - back].to_vec());
    let numbers = if taken + letters.len() == 0 { Vec::new() } else { vec![front as u64, taken as u64, letters.len() as u64] };
    Sheet { read: read.to_vec(), mended: mended.to_vec(), numbers, letters }
}

/// The edits between the bases of a longest common subsequence.
fn smallest_edits(read: &[u8], mended: &[u8]) -> Sheet {
    let mut common = vec![vec![0_u16; mended.len() + 1]; read.len() + 1];
    for i in (0..read.len()).rev() {
        for j in (0..mended.len()).rev() {
            let kept = if read[i] == mended[j] { common[i + 1][j + 1] + 1 } else { 0 };
            common[i][j] = kept.max(common[i + 1][j]).max(common[i][j + 1]);
        }
    }
    let mut sheet = Sheet { read: read.to_vec(), mended: mended.to_vec(), ..Sheet::default() };
    let (mut i, mut j) = (0, 0);
    while i < read.len() || j < mended.len() {
        let (from, begun) = (i, j);
        while (i < read.len() || j < mended.len()) && !(i < read.len() && j < mended.len() && read[i] == mended[j]) {
            if i < read.len() && common[i + 1][j] == common[i][j] {
                i += 1;
            } else {
                j += 1;
            }
        }
        if i > from || j > begun {
            sheet.numbers.extend([from as u64, (i - from) as u64, (j - begun) as u64]);
            sheet.letters.extend_from_slice(&mended[begun..j]);
        }
        (i, j) = (i + 1, j + 1);
    }
    sheet
}

/// Short reads, few letters, any numbers.
fn any(rng: &mut Rng, visit: &mut Visit) {
    let k = *rng.pick(&[1, 1, 3]);
    let site = super::sets::dense(rng, k);
    for _ in 0..24 {
        let length = rng.below(12);
        let mut read = reads::letters(rng, length);
        if rng.percent(20) {
            read = reads::with_unknown(rng, read);
        }
        let mut positions: Vec<u64> = (0..rng.below(4)).map(|_| rng.below(length + 2) as u64).collect();
        if rng.percent(80) {
            positions.sort_unstable();
        }
        let mut numbers: Vec<u64> = positions.iter().flat_map(|position| [*position, *rng.pick(&[0, 1, 1, 2]), *rng.pick(&[0, 1, 1, 2])]).collect();
        if rng.percent(5) && !numbers.is_empty() {
            let place = rng.below(numbers.len());
            numbers[place] = *rng.pick(&FAR);
        }
        numbers.truncate(numbers.len() - if rng.percent(10) { rng.below(3).min(numbers.len()) } else { 0 });
        let given = numbers.iter().skip(2).step_by(3).fold(0_u64, |sum, given| sum.saturating_add(*given)).min(20) as usize;
        let (fewer, more) = (rng.percent(5) as usize, if rng.percent(10) { rng.within(0, 2) } else { 0 });
        let letters = reads::letters(rng, given.saturating_sub(fewer) + more);
        let mended = applied(&read, &numbers, &letters).unwrap_or_else(|| reads::letters(rng, length));
        let mut sheet = Sheet { read, mended, numbers, letters };
        visit(&site, &sheet, Maker::Partner);
        break_list(rng, &mut sheet.mended);
        visit(&site, &sheet, Maker::Partner);
    }
}

/// The edits made one after the other, from the last on, as far as they can be.
fn applied(read: &[u8], numbers: &[u64], letters: &[u8]) -> Option<Vec<u8>> {
    let (mut made, mut rest) = (read.to_vec(), letters.to_vec());
    for edit in numbers.chunks_exact(3).rev() {
        let (position, end) = (usize::try_from(edit[0]).ok()?, usize::try_from(edit[0].checked_add(edit[1])?).ok()?);
        let given = rest.split_off(rest.len().checked_sub(usize::try_from(edit[2]).ok()?)?);
        if end > made.len() {
            return None;
        }
        drop(made.splice(position..end, given));
    }
    Some(made)
}

/// Reads as long as they may be, a byte longer, with sets that are refused; edits at the last base but one.
fn limits(visit: &mut Visit) {
    let all_a = Site::new(set_file::make(3, &[0]));
    let damaged = Site::new(vec![0; 511]);
    for site in [&all_a, &damaged] {
        for (read, mended) in [(0, 0), (0, 1), (1, 0), (1, 1)] {
            let (read, mended) = (vec![b'A'; MOST_INPUT + read], vec![b'A'; MOST_INPUT + mended]);
            for end in [2, 1] {
                let numbers = vec![3, 1, 1, (MOST_INPUT - end) as u64, 1, 1];
                visit(site, &Sheet { read: read.clone(), mended: mended.clone(), numbers, letters: b"AA".to_vec() }, Maker::Partner);
            }
        }
    }
    // As many edits as fit.
    let read = vec![b'A'; MOST_INPUT];
    let numbers: Vec<u64> = (3..MOST_INPUT as u64 - 1).flat_map(|position| [position, 1, 1]).collect();
    let letters = vec![b'A'; numbers.len() / 3];
    visit(&all_a, &Sheet { read: read.clone(), mended: read, numbers, letters }, Maker::Partner);
}
