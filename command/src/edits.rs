//! `hatchery edits`: whether other programs' edits hold.
use crate::cli;
use crate::error::{failed, Result};
use crate::input::{Position, Source};
use crate::lent::SetFile;
use crate::output::print;
use crate::words::of_call;
use corrector::{Edit, Edits, Refusal};
use serde_json::{json, Value};

/// A line of the input: read, corrected read, edits with their letters.
struct Sheet<'a> {
    read: &'a [u8],
    mended: &'a [u8],
    edits: Vec<Edit>,
    letters: Vec<u8>,
}

fn number(text: &[u8]) -> Option<u64> {
    std::str::from_utf8(text).ok()?.parse().ok()
}

fn sheet(line: &[u8]) -> Option<Sheet<'_>> {
    let mut fields = line.split(|byte| *byte == b'\t');
    let (read, mended, listed) = (fields.next()?, fields.next()?, fields.next().unwrap_or_default());
    let (mut edits, mut letters) = (Vec::new(), Vec::new());
    for edit in listed.split(|byte| *byte == b' ').filter(|edit| !edit.is_empty()) {
        let mut parts = edit.splitn(3, |byte| *byte == b':');
        let (position, taken, given) = (number(parts.next()?)?, number(parts.next()?)?, parts.next()?);
        edits.push(Edit { position, taken, given: given.len() as u64 });
        letters.extend_from_slice(given);
    }
    fields.next().is_none().then_some(Sheet { read, mended, edits, letters })
}

impl Sheet<'_> {
    fn words(&self, refusal: Refusal) -> String {
        let number = refusal.number();
        match refusal {
            Refusal::Edit { edit } => match self.edits.get(edit) {
                Some(Edit { position, .. }) => {
                    format!("refused ({number}): edit {} at position {position}: its form, or a k-mer around it that is not solid", edit + 1)
                }
                None => format!("refused ({number}): the edits do not give the corrected read"),
            },
            other => of_call(other),
        }
    }
}

pub fn run(args: &cli::Edits) -> Result<()> {
    let set = SetFile::read(&args.set)?;
    let mut source = Source::open(&args.input, &Position::default())?;
    let (mut line, mut text, mut all, mut refused) = (Vec::new(), String::new(), Vec::new(), 0);
    loop {
        line.clear();
        if !source.line(&mut line)? {
            break;
        }
        let Some(sheet) = sheet(&line) else {
            return failed(format!("{}: line {}: not READ<tab>CORRECTED<tab>EDITS, an edit being POSITION:TAKEN:LETTERS", source.name, source.lines));
        };
        let judged = corrector::check_edits(set.bytes(), sheet.read, sheet.mended, Edits::new(&sheet.edits), &sheet.letters);
        let words = judged.err().map(|refusal| sheet.words(refusal));
        refused += u64::from(words.is_some());
        match args.json {
            true => all.push(json!({
                "line": source.lines, "accepted": judged.is_ok(), "refusal": judged.err().map(Refusal::number),
                "place": judged.err().map(Refusal::place), "words": words,
            })),
            false => text += &format!("{}\t{}\n", source.lines, words.as_deref().unwrap_or("accepted")),
        }
    }
    print(&if args.json { format!("{:#}\n", Value::Array(all)) } else { text })?;
    match refused {
        0 => Ok(()),
        _ => failed(format!("{}: {refused} of {} not accepted", source.name, source.lines)),
    }
}
