//! A ledger as its twelve months. This knows the layout of the file by itself and asks the reference nothing, so that a
//! ledger which is made to be accepted is a third opinion on it.

use crate::case::with_contents;
use crate::random::Random;

pub const MONTHS: usize = 12;
pub const CONTENTS: usize = 96;
pub const FINDING: usize = 6;
/// The most findings of a month.
pub const FULL: usize = 4_095;
/// The largest file that the program `ledger` looks at.
pub const LARGEST_SHOWN: usize = 65_536;

pub type Finding = [u8; FINDING];

/// Findings and dismissed ones of each month.
pub type Counts = [(usize, usize); MONTHS];

pub const NONE: Counts = [(0, 0); MONTHS];

#[derive(Clone, Default)]
pub struct Ledger {
    pub months: [Vec<Finding>; MONTHS],
}

impl Ledger {
    /// So many findings that a person closed, and that a script closed, in each month in any order.
    pub fn of_counts(random: &mut Random, person: &Counts, script: &Counts) -> Ledger {
        let mut ledger = Ledger::default();
        for (month, findings) in ledger.months.iter_mut().enumerate() {
            for (counts, by_script) in [(person, false), (script, true)] {
                let (all, dismissed) = counts[month];
                findings.extend((0..all).map(|place| finding(random, by_script, place < dismissed)));
            }
            for place in (1..findings.len()).rev() {
                findings.swap(place, random.below(place + 1));
            }
        }
        ledger
    }

    /// The months of a file whose table of contents is in order.
    pub fn of_file(file: &[u8]) -> Ledger {
        let word = |at: usize| u32::from_le_bytes(file[at..at + 4].try_into().unwrap()) as usize;
        let mut ledger = Ledger::default();
        for (month, findings) in ledger.months.iter_mut().enumerate() {
            let body = &file[word(8 * month)..][..word(8 * month + 4)];
            findings.extend(body.chunks(FINDING).map(|finding| Finding::try_from(finding).unwrap()));
        }
        ledger
    }

    pub fn bodies(&self) -> [Vec<u8>; MONTHS] {
        self.months.each_ref().map(|month| month.concat())
    }

    pub fn file(&self) -> Vec<u8> {
        file_of(&self.bodies())
    }

    /// The counts of all findings, or of those that a person closed.
    pub fn counts(&self, with_script: bool) -> Counts {
        self.months.each_ref().map(|month| {
            let counted = || month.iter().filter(|finding| with_script || finding[4] == 0);
            (counted().count(), counted().filter(|finding| finding[5] == 1).count())
        })
    }
}

/// A finding with any block and text ID, often at a limit.
pub fn finding(random: &mut Random, by_script: bool, dismissed: bool) -> Finding {
    let bits = random.next();
    let block = if bits & 7 == 0 { 63 } else { (bits >> 3) as u8 & 63 };
    let [low, high] = match bits >> 9 & 7 {
        0 => [0, 0],
        1 => [255, 255],
        _ => [(bits >> 12) as u8, (bits >> 20) as u8],
    };
    [block, 0, low, high, by_script.into(), dismissed.into()]
}

/// The file of twelve bodies of any bytes, with the table of contents that fits them.
pub fn file_of(bodies: &[Vec<u8>; MONTHS]) -> Vec<u8> {
    with_contents(&bodies.each_ref())
}
