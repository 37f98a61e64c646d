//! What came up in a run over ledgers, and whether an answer is right as far as the generator knows by itself.

use std::cmp::Ordering;

use crate::bends::{standing, Standing};
use crate::coverage::{counts, row, words};
use crate::ledger::{Counts, Ledger, FULL, MONTHS};
use crate::ledger_aims::Aim;

/// The answers to a ledger.
pub const NUMBERS: [u8; 6] = [0, 20, 21, 22, 23, 24];
const TABLES: [&str; 2] = ["with", "without"];
const RATES: [&str; 4] = ["none", "0", "between", "1"];
const SIGNS: [&str; 3] = ["below 0", "0", "above 0"];
/// What is counted of a table besides; the last three only where large ledgers are asked about.
const SORTS: [&str; 7] = [
    "a tie",
    "a tie that floats miss",
    "beyond 32 bits",
    "a full month",
    "49,140 findings",
    "a near tie",
    "a nearest tie",
];

#[derive(Default)]
pub struct Seen {
    answers: [u64; 6],
    /// By table: bends by month, 0 for none.
    bends: [[u64; MONTHS + 1]; 2],
    rates: [[u64; 4]; 2],
    signs: [[u64; 3]; 2],
    sorts: [[u64; 7]; 2],
    /// Ledgers whose two bends differ, and near ties of which floats take the wrong month.
    two_bends: u64,
    near_missed: u64,
    bytes: usize,
    largest: usize,
}

impl Seen {
    /// Counts a ledger with its answer's number; an error where that is not what it was made for.
    pub fn ledger(&mut self, aim: &Aim, wanted: Option<u8>, file: &[u8], number: u8) -> Result<(), String> {
        if wanted.is_some_and(|wanted| wanted != number) {
            return Err(format!("{}: made for {wanted:?}, answered {number}", aim.name));
        }
        let place = NUMBERS.iter().position(|known| *known == number);
        self.answers[place.ok_or(format!("{}: answered {number}", aim.name))?] += 1;
        self.bytes += file.len();
        self.largest = self.largest.max(file.len());
        if number == 0 {
            self.accepted(&Ledger::of_file(file));
        }
        Ok(())
    }

    fn accepted(&mut self, ledger: &Ledger) {
        let mut bends = [None; 2];
        for (table, with_script) in [(0, true), (1, false)] {
            let counts = ledger.counts(with_script);
            let standing = standing(&counts);
            bends[table] = standing.bend;
            self.table(table, &counts, &standing);
        }
        self.two_bends += u64::from(bends[0] != bends[1]);
    }

    fn table(&mut self, table: usize, counts: &Counts, standing: &Standing) {
        self.bends[table][standing.bend.unwrap_or(0)] += 1;
        if let Some(sign) = standing.sign {
            self.signs[table][(1 + sign as i8) as usize] += 1;
        }
        let sorts = [
            standing.tie,
            standing.tie && standing.floats_err,
            standing.wide,
            counts.iter().any(|month| month.0 == FULL),
            counts.iter().all(|month| month.0 == FULL),
            standing.near,
            standing.nearest,
        ];
        for (seen, is) in self.sorts[table].iter_mut().zip(sorts) {
            *seen += u64::from(is);
        }
        self.near_missed += u64::from(standing.near && standing.floats_err);
        for (findings, dismissed) in *counts {
            let rate = match (findings, dismissed) {
                (0, _) => 0,
                (_, 0) => 1,
                _ => 2 + usize::from(dismissed == findings),
            };
            self.rates[table][rate] += 1;
        }
    }

    /// What has to come up and did not, of the numbers that can be.
    pub fn missing(&self, numbers: &[u8]) -> Vec<String> {
        let mut wanted: Vec<(u64, String)> = Vec::new();
        for (seen, number) in self.answers.iter().zip(NUMBERS) {
            if numbers.contains(&number) {
                wanted.push((*seen, format!("answered {number}")));
            }
        }
        for (table, name) in TABLES.iter().enumerate() {
            let mut all = |what: &str, seen: &[u64], names: &[String]| {
                wanted.extend(seen.iter().zip(names).map(|(seen, one)| (*seen, format!("{name}, {what}{one}"))));
            };
            all("bend ", &self.bends[table][..MONTHS], &bend_names());
            all("rate ", &self.rates[table], &words(&RATES));
            all("largest difference ", &self.signs[table], &words(&SIGNS));
            all("", &self.sorts[table][..4], &words(&SORTS));
        }
        wanted.push((self.two_bends, "two bends".to_string()));
        wanted.into_iter().filter(|(seen, _)| *seen == 0).map(|(_, what)| what).collect()
    }

    /// What has to come up besides where large ledgers are asked about.
    pub fn missing_large(&self) -> Vec<String> {
        let wanted = [
            (self.sorts[0][4], "49,140 findings"),
            (self.sorts[0][5], "with, a near tie"),
            (self.sorts[1][5], "without, a near tie"),
            (self.sorts[1][6], "without, a nearest tie"),
            (self.near_missed, "a near tie that floats miss"),
        ];
        wanted.iter().filter(|(seen, _)| *seen == 0).map(|(_, what)| what.to_string()).collect()
    }

    pub fn table_text(&self) -> String {
        let mut text = String::new();
        row(&mut text, "answer", &counts(&NUMBERS.map(u64::from)));
        row(&mut text, "ledgers", &counts(&self.answers));
        let mut part = |what: &str, names: &[String], seen: [&[u64]; 2]| {
            row(&mut text, "", &[]);
            row(&mut text, what, names);
            for (name, seen) in TABLES.iter().zip(seen) {
                row(&mut text, name, &counts(seen));
            }
        };
        let [with, without] = &self.bends;
        part("bend in", &bend_names(), [&with[..MONTHS], &without[..MONTHS]]);
        part("months by rate", &words(&RATES), self.rates.each_ref().map(|seen| &seen[..]));
        part("largest difference", &words(&SIGNS), self.signs.each_ref().map(|seen| &seen[..]));
        row(&mut text, "", &[]);
        for (sort, name) in SORTS.iter().enumerate() {
            row(&mut text, name, &counts(&[self.sorts[0][sort], self.sorts[1][sort]]));
        }
        row(&mut text, "near and floats miss", &counts(&[self.near_missed]));
        row(&mut text, "two bends", &counts(&[self.two_bends]));
        text += &format!("  {} bytes, the largest ledger {}\n", self.bytes, self.largest);
        text
    }
}

fn bend_names() -> Vec<String> {
    (0..MONTHS).map(|month| if month == 0 { "none".to_string() } else { month.to_string() }).collect()
}

/// Whether an accepted ledger's answer has the counts, rates and bends that the generator finds by itself.
pub fn is_right(file: &[u8], answer: &[u8]) -> bool {
    let ledger = Ledger::of_file(file);
    let mut left = &answer[1..];
    let mut take = |bytes: usize| {
        let (taken, rest) = left.split_at(bytes);
        left = rest;
        taken.iter().rev().fold(0u64, |high, low| high << 8 | u64::from(*low))
    };
    for with_script in [true, false] {
        let counts = ledger.counts(with_script);
        for (findings, dismissed) in counts {
            let (got, got_dismissed, has, bits) = (take(4), take(4), take(1), take(8));
            let right = got == findings as u64 && got_dismissed == dismissed as u64;
            if !right || has != u64::from(findings > 0) || !is_nearest(bits, dismissed as i128, findings as i128) {
                return false;
            }
        }
        if take(1) != standing(&counts).bend.unwrap_or(0) as u64 {
            return false;
        }
    }
    left.is_empty()
}

/// Whether these are the bits of the float that is nearest to a fraction of at most 1; all 0 where it is 0 or none.
fn is_nearest(bits: u64, over: i128, under: i128) -> bool {
    if over == 0 {
        return bits == 0;
    }
    let fraction = i128::from(bits & (1 << 52) - 1 | 1 << 52);
    let exponent = bits >> 52;
    // The float is fraction / 2^places; half a unit of it from the fraction is nearer than its neighbours.
    (1_000..=1_023).contains(&exponent) && {
        let places = 1_075 - exponent;
        2 * (fraction * under - (over << places)).abs() <= under
    }
}

/// The sign as `Seen` counts it is -1, 0 or 1.
const _: () = assert!(Ordering::Less as i8 == -1 && Ordering::Greater as i8 == 1);
