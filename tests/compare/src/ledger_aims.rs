//! Ledgers that are to be accepted, each sort aimed at something.

use std::cmp::Ordering;

use crate::bends::{few, known_near_tie, search, some_months, standing, symmetric};
use crate::ledger::{finding, Counts, Ledger, FULL, MONTHS, NONE};
use crate::random::Random;

/// A sort of ledger that is asked about.
pub struct Aim {
    pub name: &'static str,
    /// The answer that it has to get; none where that may be any.
    pub number: Option<u8>,
    /// How often it is drawn, of the sum of all.
    pub weight: usize,
    pub make: fn(&mut Random) -> Vec<u8>,
}

/// A sort that has to get this answer.
pub const fn aim(number: u8, name: &'static str, weight: usize, make: fn(&mut Random) -> Vec<u8>) -> Aim {
    Aim { name, number: Some(number), weight, make }
}

pub static ACCEPTED: [Aim; 24] = [
    aim(0, "small", 120, |random| small(random).file()),
    aim(0, "a few months", 40, |random| ledger(random, 3, 4).file()),
    aim(0, "some hundred findings", 3, |random| ledger(random, 16, 150).file()),
    aim(0, "no finding", 5, |_| Ledger::default().file()),
    aim(0, "one finding", 6, |random| alone(random, &[0, 1, 5, 10, 11], 1)),
    aim(0, "one month alone", 8, |random| alone(random, &[0, 1, 5, 10], 20)),
    aim(0, "month 12 alone", 6, |random| alone(random, &[11], 20)),
    aim(0, "two months", 16, two_months),
    aim(0, "every rate the same", 10, |random| mixed(random, equal_rates)),
    aim(0, "none dismissed", 8, |random| with_verdict(random, 0)),
    aim(0, "all dismissed", 8, |random| with_verdict(random, 1)),
    aim(0, "every difference below 0", 15, |random| {
        mixed(random, |random| search(random, |standing| standing.sign == Some(Ordering::Less)))
    }),
    aim(0, "tie", 20, |random| mixed(random, |random| search(random, |standing| standing.tie))),
    aim(0, "tie of an even three", 15, |random| mixed(random, |random| symmetric(random, 60))),
    aim(0, "tie that floats miss", 20, |random| {
        mixed(random, |random| search(random, |standing| standing.tie && standing.floats_err))
    }),
    aim(0, "tie below 0", 10, |random| {
        mixed(random, |random| search(random, |standing| standing.tie && standing.sign == Some(Ordering::Less)))
    }),
    aim(0, "closed by script alone", 8, |random| with_closing(random, 1)),
    aim(0, "closed by persons alone", 8, |random| with_closing(random, 0)),
    aim(0, "months closed by script", 10, script_months),
    aim(0, "another bend without script", 15, two_bends),
    aim(0, "rates that an inverse misses", 10, |random| mixed(random, inverse_misses)),
    aim(0, "products beyond 32 bits", 3, wide),
    aim(0, "a full month", 3, |random| full_months(random, 1, false)),
    aim(0, "near tie, the later ahead", 3, |random| {
        let counts = known_near_tie(random, true);
        Ledger::of_counts(random, &counts, &NONE).file()
    }),
];

/// A ledger with up to `months` months drawn, some of them twice, and up to `most` findings in each. Months differ in
/// how much of them is dismissed or closed by script.
fn ledger(random: &mut Random, months: usize, most: usize) -> Ledger {
    let mut ledger = Ledger::default();
    for _ in 0..1 + random.below(months) {
        let percent = |random: &mut Random| match random.below(5) {
            0 => 0,
            1 => 100,
            _ => random.below(101),
        };
        let (script, dismissed) = (percent(random), percent(random));
        let count = 1 + random.below(most);
        ledger.months[random.below(MONTHS)] = (0..count)
            .map(|_| {
                let (by_script, is_dismissed) = (random.below(100) < script, random.below(100) < dismissed);
                finding(random, by_script, is_dismissed)
            })
            .collect();
    }
    ledger
}

pub fn small(random: &mut Random) -> Ledger {
    ledger(random, 24, 8)
}

/// A ledger of at least one finding in the first and the last of some months, so that each place can be aimed at.
pub fn small_with_some(random: &mut Random) -> Ledger {
    loop {
        let ledger = small(random);
        if ledger.months.iter().map(Vec::len).sum::<usize>() >= 2 {
            return ledger;
        }
    }
}

/// A ledger with these counts in its first table, or in its second, or in both.
fn mixed(random: &mut Random, counts: impl Fn(&mut Random) -> Counts) -> Vec<u8> {
    let counts = counts(random);
    let other = few(random, 4, 6);
    match random.below(4) {
        0 => Ledger::of_counts(random, &NONE, &counts),
        1 => Ledger::of_counts(random, &counts, &NONE),
        2 => Ledger::of_counts(random, &counts, &other),
        _ => {
            // Any part of them closed by script.
            let mut ledger = Ledger::of_counts(random, &counts, &NONE);
            ledger.months.iter_mut().flatten().for_each(|finding| finding[4] = random.below(2) as u8);
            ledger
        }
    }
    .file()
}

fn alone(random: &mut Random, months: &[usize], most: usize) -> Vec<u8> {
    let mut counts = NONE;
    let findings = 1 + random.below(most);
    counts[random.pick(months)] = (findings, random.below(findings + 1));
    mixed(random, |_| counts)
}

fn two_months(random: &mut Random) -> Vec<u8> {
    let mut counts = NONE;
    for month in some_months(random, 2) {
        let findings = 1 + random.below(12);
        counts[month] = (findings, random.below(findings + 1));
    }
    mixed(random, |_| counts)
}

/// Some months, all with one rate.
fn equal_rates(random: &mut Random) -> Counts {
    let findings = 1 + random.below(6);
    let dismissed = random.below(findings + 1);
    let mut counts = NONE;
    let count = 2 + random.below(MONTHS - 1);
    for month in some_months(random, count) {
        let times = 1 + random.below(4);
        counts[month] = (times * findings, times * dismissed);
    }
    counts
}

fn with_verdict(random: &mut Random, verdict: u8) -> Vec<u8> {
    let mut ledger = small(random);
    ledger.months.iter_mut().flatten().for_each(|finding| finding[5] = verdict);
    ledger.file()
}

fn with_closing(random: &mut Random, closed: u8) -> Vec<u8> {
    let mut ledger = small(random);
    ledger.months.iter_mut().flatten().for_each(|finding| finding[4] = closed);
    ledger.file()
}

/// Some of the months have nothing that a person closed.
fn script_months(random: &mut Random) -> Vec<u8> {
    let mut ledger = small(random);
    for month in ledger.months.iter_mut().filter(|month| !month.is_empty()) {
        if random.one_in(2) {
            month.iter_mut().for_each(|finding| finding[4] = 1);
        }
    }
    ledger.file()
}

fn two_bends(random: &mut Random) -> Vec<u8> {
    loop {
        let ledger = small(random);
        let bend = |with_script| standing(&ledger.counts(with_script)).bend;
        if bend(true) != bend(false) && bend(false).is_some() {
            return ledger.file();
        }
    }
}

/// n x (1 / n) is not 1 for these n.
fn inverse_misses(random: &mut Random) -> Counts {
    let mut counts = NONE;
    for month in some_months(random, 2) {
        let findings = random.pick(&[49, 98, 103, 107, 161]);
        counts[month] = (findings, if random.one_in(2) { findings } else { random.below(findings + 1) });
    }
    counts
}

/// Rates that rise a little from month to month, over some thousand findings.
fn wide(random: &mut Random) -> Vec<u8> {
    let mut counts = NONE;
    for (month, count) in counts.iter_mut().enumerate() {
        let findings = 40 + random.below(120);
        *count = (findings, (findings * (month + 6) / 24 + random.below(6)).min(findings));
    }
    mixed(random, |_| counts)
}

/// A ledger with months that have as many findings as a month may have, of which some are closed by script or none.
pub fn full_months(random: &mut Random, count: usize, some_by_script: bool) -> Vec<u8> {
    let mut ledger = ledger(random, 6, 6);
    for month in some_months(random, count) {
        let mut full = || {
            let (by_script, dismissed) = (some_by_script && random.one_in(2), random.one_in(3));
            finding(random, by_script, dismissed)
        };
        ledger.months[month] = (0..FULL).map(|_| full()).collect();
    }
    ledger.file()
}
