//! Sheets of other programs' edits: one sheet on both sides, and the run over all of them.
use crate::cases::edits::{each, Maker};
use crate::check::{show, Site};
use crate::library::Library;
use crate::referee::edits::{check_edits, judge, Judgement, Sheet};

/// Numbers of refusals, and 0.
const REFUSALS: usize = 20;

/// What was compared.
#[derive(Default)]
pub struct Judged {
    pub agreed: u64,
    pub failed: u64,
    /// Accepted, those of them with edits, with edits that touch, and with edits that take and give nothing.
    accepted: u64,
    edited: u64,
    touching: u64,
    empty: u64,
    /// Corrections of ours that were told as edits: accepted, and not.
    ours: [u64; 2],
    /// By number; of 19, by judgement.
    refusals: [u64; REFUSALS],
    judgements: [u64; 3],
    /// The shortest sheet on which the sides differ: its length, what it is, and how they differ.
    failure: Option<(usize, String)>,
}

impl Judged {
    pub fn print(&self) {
        let refused = (0..).zip(self.refusals).filter(|(number, count)| *number > 0 && *count > 0).map(|(number, count)| format!("{number} {count}"));
        println!(
            "{} sheets accepted, {} with edits, {} with touching ones, {} with empty ones; refused: {}; of 19 {} by form, {} by k-mers, {} by joining; our corrections: {} accepted, {} not",
            self.accepted,
            self.edited,
            self.touching,
            self.empty,
            refused.collect::<Vec<_>>().join(", "),
            self.judgements[0],
            self.judgements[1],
            self.judgements[2],
            self.ours[0],
            self.ours[1],
        );
        if let Some((_, failure)) = &self.failure {
            println!("judged differently: {failure}");
        }
    }

    /// A sheet that both sides judge alike.
    fn add(&mut self, site: &Site, sheet: &Sheet, maker: Maker, number: usize) {
        self.agreed += 1;
        self.refusals[number] += 1;
        if maker == Maker::Ours && !sheet.numbers.is_empty() && matches!(number, 0 | 19) {
            self.ours[(number == 19) as usize] += 1;
        }
        if let (19, Ok(set)) = (number, &site.opened) {
            let judgement = judge(set, sheet).map(|(judgement, _)| judgement);
            let place = [Judgement::Form, Judgement::Kmers, Judgement::Joining].iter().position(|known| Some(*known) == judgement);
            self.judgements[place.expect("refused")] += 1;
        }
        if number == 0 {
            let edits: Vec<&[u64]> = sheet.numbers.chunks(3).collect();
            self.accepted += 1;
            self.edited += !edits.is_empty() as u64;
            self.touching += edits.windows(2).any(|pair| pair[0][0] + pair[0][1] == pair[1][0]) as u64;
            self.empty += edits.iter().any(|edit| edit[1] + edit[2] == 0) as u64;
        }
    }
}

fn what(site: &Site, sheet: &Sheet) -> String {
    let set = site.opened.as_ref().map(|set| (set.k, &set.keys[..set.keys.len().min(100)]));
    let Sheet { read, mended, numbers, letters } = sheet;
    if read.len() + mended.len() > 2000 {
        return format!("reads of {} and {} bytes, {} numbers", read.len(), mended.len(), numbers.len());
    }
    format!("k and keys {set:?}, read {}, mended {}, numbers {numbers:?}, letters {}", show(read), show(mended), show(letters))
}

/// Every sheet of a seed.
pub fn run(library: &dyn Library, seed: u64, rounds: u64, judged: &mut Judged) {
    each(seed, rounds, &mut |site: &Site, sheet: &Sheet, maker: Maker| {
        let expected = check_edits(&site.opened, sheet);
        let found = library.check_edits(&site.bytes, sheet).err();
        if found == expected {
            judged.add(site, sheet, maker, expected.map_or(0, |refusal| refusal.number as usize));
            return;
        }
        judged.failed += 1;
        let length = sheet.read.len() + sheet.mended.len() + sheet.numbers.len() + site.bytes.len();
        if judged.failure.as_ref().is_none_or(|(known, _)| length < *known) {
            judged.failure = Some((length, format!("{}: expected {expected:?}, found {found:?}", what(site, sheet))));
        }
    });
}
