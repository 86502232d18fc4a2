//! Why a call is refused.
use std::error::Error;
use std::fmt::{Display, Formatter, Result};

/// Why a call is refused. Checked in this order, but for 11, which comes last, 17, which comes between 4 and 5, and 18, which comes between 6 and 7: the first that
/// applies is told; [`make_set`](crate::make_set) has an order of its own. Places count from 0.
#[derive(Clone, Copy, Debug, PartialEq, Eq)]
pub enum Refusal {
    /// 1: the read, batch or FASTA file is longer than [`MAX_INPUT`](crate::MAX_INPUT) bytes.
    InputLength,
    /// 2: the job has more than [`MAX_ENTRIES`](crate::MAX_ENTRIES) entries.
    EntryCount,
    /// 3: a method byte is none of the four.
    MethodUnknown {
        /// The first such entry.
        index: usize,
    },
    /// 4: a confirm is 0, or an entry lacks its second byte.
    ConfirmZero {
        /// The first such entry.
        index: usize,
    },
    /// 5: output or work is too long, or work is shorter than [`work_length`](crate::work_length); of [`needs`](crate::needs): work is shorter than
    /// the batch.
    Buffers,
    /// 6: the batch or FASTA file is not empty and lacks a final byte 10, or has more than [`MAX_LINES`](crate::MAX_LINES) lines or, of a FASTA file,
    /// [`MAX_RECORDS`](crate::MAX_RECORDS) records.
    Batch,
    /// 7: the set's length is 0 or no multiple of 512.
    SetLength,
    /// 8: a check word of the set is wrong.
    SetCheck {
        /// The first such block.
        block: usize,
    },
    /// 9: the set's k, its number of keys, its header or its number of blocks is wrong.
    SetHeader,
    /// 10: a key of the set is not canonical, too large or not rising, or a spare word is not zero.
    SetKey {
        /// The word's index among the words of the key blocks, check words not counted.
        word: usize,
    },
    /// 11: a result does not fit the output. Output and work are all zero.
    NoRoom {
        /// The line of the batch, or the record of a FASTA file; 0 for a single read.
        line: usize,
    },
    /// 12: a line of k-mer counts breaks the form.
    Line {
        /// The line of the text.
        line: usize,
    },
    /// 13: the canonical code of a kept line of k-mer counts does not rise.
    NotRising {
        /// The line of the text.
        line: usize,
    },
    /// 14: the buffer is too short for the blocks, or the list for the counts.
    TooShort,
    /// 15: an offered index isn't the one of the set.
    Index,
    /// 16: the counts that are offered are not one for each key of the set.
    Counts,
    /// 17: the job that [`needs`](crate::needs) is asked for has other than one entry.
    NotOneEntry,
    /// 18: a sequence line of a FASTA file stands before the first name line, or holds `>`.
    Sequence {
        /// The first such line of the file, lines of no bytes counted.
        line: usize,
    },
    /// 19: a sheet that [`check_edits`](crate::check_edits) was asked for isn't accepted.
    Edit {
        /// The first edit that offends in the first judgement that fails; the number of edits where only the joining differs.
        edit: usize,
    },
    /// 20: an end of a [`bridge`](crate::bridge) is not solid. Checked behind 10.
    NotSolid {
        /// 0 for the first end, else 1.
        end: usize,
    },
}

impl Refusal {
    /// The refusal of a number and a place, as the library tells them.
    pub(crate) fn from_numbers(number: u64, place: u64) -> Self {
        let place = place as usize;
        match number {
            1 => Self::InputLength,
            2 => Self::EntryCount,
            3 => Self::MethodUnknown { index: place },
            4 => Self::ConfirmZero { index: place },
            5 => Self::Buffers,
            6 => Self::Batch,
            7 => Self::SetLength,
            8 => Self::SetCheck { block: place },
            9 => Self::SetHeader,
            10 => Self::SetKey { word: place },
            11 => Self::NoRoom { line: place },
            12 => Self::Line { line: place },
            13 => Self::NotRising { line: place },
            14 => Self::TooShort,
            15 => Self::Index,
            16 => Self::Counts,
            17 => Self::NotOneEntry,
            18 => Self::Sequence { line: place },
            19 => Self::Edit { edit: place },
            20 => Self::NotSolid { end: place },
            _ => unreachable!("the library refuses by 1 to 20"),
        }
    }

    /// The number, 1 to 20.
    pub fn number(self) -> u8 {
        match self {
            Self::InputLength => 1,
            Self::EntryCount => 2,
            Self::MethodUnknown { .. } => 3,
            Self::ConfirmZero { .. } => 4,
            Self::Buffers => 5,
            Self::Batch => 6,
            Self::SetLength => 7,
            Self::SetCheck { .. } => 8,
            Self::SetHeader => 9,
            Self::SetKey { .. } => 10,
            Self::NoRoom { .. } => 11,
            Self::Line { .. } => 12,
            Self::NotRising { .. } => 13,
            Self::TooShort => 14,
            Self::Index => 15,
            Self::Counts => 16,
            Self::NotOneEntry => 17,
            Self::Sequence { .. } => 18,
            Self::Edit { .. } => 19,
            Self::NotSolid { .. } => 20,
        }
    }

    /// The place: an entry, a block, a word, a line, an edit or an end; 0 for a refusal that has none.
    pub fn place(self) -> usize {
        match self {
            Self::MethodUnknown { index: place } | Self::ConfirmZero { index: place } => place,
            Self::SetCheck { block: place } | Self::SetKey { word: place } => place,
            Self::NoRoom { line: place } | Self::Line { line: place } | Self::NotRising { line: place } | Self::Sequence { line: place } => place,
            Self::Edit { edit: place } => place,
            Self::NotSolid { end: place } => place,
            _ => 0,
        }
    }
}

impl Display for Refusal {
    fn fmt(&self, to: &mut Formatter<'_>) -> Result {
        match self {
            Self::InputLength => write!(to, "the read, batch or file is too long"),
            Self::EntryCount => write!(to, "the job has too many entries"),
            Self::MethodUnknown { index } => write!(to, "the method of entry {index} is unknown"),
            Self::ConfirmZero { index } => write!(to, "the confirm of entry {index} is 0"),
            Self::Buffers => write!(to, "the output or work buffer has a wrong length"),
            Self::Batch => write!(to, "the batch or file lacks a final byte 10, or has too many lines or records"),
            Self::SetLength => write!(to, "the set's length is 0 or no multiple of 512"),
            Self::SetCheck { block } => write!(to, "block {block} of the set is damaged"),
            Self::SetHeader => write!(to, "the set's header is wrong"),
            Self::SetKey { word } => write!(to, "word {word} of the set's keys is wrong"),
            Self::NoRoom { line } => write!(to, "the result of line or record {line} does not fit the output"),
            Self::Line { line } => write!(to, "line {line} of the counts breaks the form"),
            Self::NotRising { line } => write!(to, "the code of line {line} of the counts does not rise"),
            Self::TooShort => write!(to, "the buffer is too short for the blocks, or the list for the counts"),
            Self::Index => write!(to, "the index is not that of the set"),
            Self::Counts => write!(to, "the counts are not as many as the set has keys"),
            Self::NotOneEntry => write!(to, "the job has other than one entry"),
            Self::Sequence { line } => write!(to, "line {line} of the file is a sequence line without a name, or holds `>`"),
            Self::Edit { edit } => write!(to, "the sheet is not accepted: edit {edit} offends, or {edit} edits give another read"),
            Self::NotSolid { end } => write!(to, "the {} k-mer of the bridge is not solid", if *end == 0 { "first" } else { "second" }),
        }
    }
}

impl Error for Refusal {}
