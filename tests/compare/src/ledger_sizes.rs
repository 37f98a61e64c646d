//! Large ledgers: the largest that there are, near ties, and files around the most that the program `ledger` looks at.

use crate::bends::{few, known_near_tie, near_tie};
use crate::ledger::{finding, Ledger, FULL, LARGEST_SHOWN, MONTHS, NONE};
use crate::ledger_aims::{aim, full_months, Aim};
use crate::ledger_damage::crowded;
use crate::random::Random;

/// What `batch` has room for. The gate's corpus has only the first.
pub static LARGE: [Aim; 8] = [
    aim(0, "every month full", 1, every_month_full),
    aim(0, "every month full, a half each", 1, |random| {
        // The largest products that there are.
        let counts = [0, FULL].map(|dismissed| [(FULL, dismissed); MONTHS / 2]).concat();
        Ledger::of_counts(random, &counts.try_into().unwrap(), &NONE).file()
    }),
    aim(0, "full months, some by script", 2, |random| full_months(random, 2, true)),
    aim(0, "near tie, the earlier ahead", 2, |random| {
        let counts = known_near_tie(random, false);
        Ledger::of_counts(random, &counts, &NONE).file()
    }),
    aim(0, "near tie among more", 3, near_tie_among_more),
    aim(22, "every month full, and a byte", 1, |random| {
        let mut file = every_month_full(random);
        file.push(0);
        file
    }),
    aim(24, "more than 4,096 findings", 1, |random| {
        let findings = FULL + 2 + random.below(900);
        crowded(random, findings, 0, |_, _| {})
    }),
    aim(24, "a month too long, another short", 1, |random| {
        let mut ledger = Ledger::of_file(&every_month_full(random));
        let moved = ledger.months[random.below(MONTHS / 2)].pop().unwrap();
        ledger.months[MONTHS / 2 + random.below(MONTHS / 2)].push(moved);
        ledger.file()
    }),
];

/// For the program `ledger` alone.
pub static SIZES: [Aim; 7] = [
    aim(0, "65,532 bytes", 15, |random| filled(random, 10_906).file()),
    aim(22, "65,533 to 65,535 bytes", 10, |random| {
        let size = LARGEST_SHOWN - 1 - random.below(3);
        padded(random, size)
    }),
    aim(22, "65,536 bytes", 10, |random| padded(random, LARGEST_SHOWN)),
    aim(20, "65,537 bytes", 10, |random| padded(random, LARGEST_SHOWN + 1)),
    aim(20, "65,538 bytes, a ledger", 15, |random| filled(random, 10_907).file()),
    aim(20, "a ledger of more", 5, |random| {
        let findings = 10_908 + random.below(30_000);
        filled(random, findings).file()
    }),
    aim(20, "any bytes, more than are read", 5, |random| {
        let size = LARGEST_SHOWN + 1 + random.below(350_000);
        vec![random.byte(); size]
    }),
];

/// The largest ledger that there is. What a person closed of it is a near tie.
fn every_month_full(random: &mut Random) -> Vec<u8> {
    let person = near_tie(random, 18_000, true);
    let script = person.map(|(findings, _)| (FULL - findings, random.below(FULL - findings + 1)));
    Ledger::of_counts(random, &person, &script).file()
}

/// A near tie that no other run has, in the table of what persons closed, or in both.
fn near_tie_among_more(random: &mut Random) -> Vec<u8> {
    let later_ahead = random.one_in(2);
    let counts = near_tie(random, 18_000, later_ahead);
    let script = if random.one_in(2) { few(random, 4, 9) } else { NONE };
    let room = |month: usize| counts[month].0 + script[month].0 <= FULL;
    let script = if (0..MONTHS).all(room) { script } else { NONE };
    Ledger::of_counts(random, &counts, &script).file()
}

/// So many findings over all months, in none too many.
fn filled(random: &mut Random, findings: usize) -> Ledger {
    let mut ledger = Ledger::default();
    for place in 0..findings {
        let month = loop {
            // Two months are drawn more often, so that they are full.
            let month = if random.one_in(4) { random.below(MONTHS) } else { random.below(2) };
            if ledger.months[month].len() < FULL {
                break month;
            }
        };
        let (by_script, dismissed) = (place % 2 == 0 && random.one_in(3), random.one_in(4));
        ledger.months[month].push(finding(random, by_script, dismissed));
    }
    ledger
}

/// The largest ledger that the program shows, and zero bytes up to this size.
fn padded(random: &mut Random, size: usize) -> Vec<u8> {
    let mut file = filled(random, 10_906).file();
    file.resize(size, 0);
    file
}
