//! Ledgers that are wrong, each sort in one way or in several, and often only just.

use crate::ledger::{file_of, finding, Ledger, CONTENTS, FINDING, FULL, MONTHS};
use crate::ledger_aims::{aim, small, small_with_some, Aim};
use crate::random::Random;

pub static WRONG: [Aim; 43] = [
    aim(21, "no byte", 4, |_| Vec::new()),
    aim(21, "one byte", 4, |random| cut_to(random, 1)),
    aim(21, "95 bytes", 8, |random| cut_to(random, 95)),
    aim(21, "under 96 bytes", 8, |random| {
        let size = random.below(CONTENTS);
        cut_to(random, size)
    }),
    aim(22, "96 zero bytes", 4, |_| vec![0; CONTENTS]),
    aim(22, "96 bytes of more", 5, |random| cut_to(random, CONTENTS)),
    aim(22, "a start off by one", 10, |random| off(random, 0, &[1, !0])),
    aim(22, "a start off by a finding", 10, |random| off(random, 0, &[6, !5])),
    aim(22, "a length off by one", 10, |random| off(random, 4, &[1, !0])),
    aim(22, "a length off by a finding", 10, |random| off(random, 4, &[6, !5])),
    aim(22, "a body that starts a byte off", 6, |random| moved(random, &[1, !0])),
    aim(22, "a bit of the table", 8, |random| {
        let mut file = small(random).file();
        file[random.below(CONTENTS)] ^= 1 << random.below(8);
        file
    }),
    aim(22, "the first start alone", 6, |random| {
        let mut file = small(random).file();
        file[0] = random.pick(&[0, 40, 90, 95, 97, 102]);
        file
    }),
    aim(22, "the first body not at 96", 6, |random| gap(random, 0)),
    aim(22, "a gap", 8, |random| {
        let month = 1 + random.below(MONTHS - 1);
        gap(random, month)
    }),
    aim(22, "an overlap", 8, |random| moved(random, &[6, 12])),
    aim(22, "two bodies changed over", 6, changed_over),
    aim(22, "bytes after the end", 8, |random| {
        let bytes = random.pick(&[1, 2, 3, 4, 5, 7]);
        longer(random, bytes)
    }),
    aim(22, "findings after the end", 8, |random| {
        let bytes = FINDING * (1 + random.below(3));
        longer(random, bytes)
    }),
    aim(22, "bytes missing at the end", 8, |random| {
        let mut file = small_with_some(random).file();
        let missing = if random.one_in(2) { FINDING } else { 1 + random.below(5) };
        file.truncate(file.len() - missing);
        file
    }),
    aim(22, "a body not of whole findings", 10, broken_body),
    aim(22, "a finding in two bodies", 10, divided),
    aim(22, "two bodies of 3 bytes alone", 4, |random| {
        let mut bodies: [Vec<u8>; MONTHS] = Default::default();
        let month = random.below(MONTHS - 1);
        bodies[month] = vec![0; 3];
        bodies[month + 1] = vec![0; 3];
        file_of(&bodies)
    }),
    aim(22, "a table modulo 2^32", 8, |random| modular(random, 1)),
    aim(22, "a table modulo 2^32, thrice", 8, |random| modular(random, 3)),
    aim(22, "a month a part too long", 2, |random| {
        let bytes = 1 + random.below(5);
        crowded(random, FULL, bytes, |_, _| {})
    }),
    aim(22, "4,096 findings and a byte", 2, |random| crowded(random, FULL + 1, 1, |_, _| {})),
    aim(22, "table and value wrong", 8, |random| {
        let mut file = wrong_value::<0, 64>(random);
        file[4 + 8 * random.below(MONTHS)] ^= 2;
        file
    }),
    aim(22, "table, value and count wrong", 2, |random| {
        crowded(random, FULL + 1, 3, |random, ledger| {
            let month = longest(ledger);
            ledger.months[month][random.below(FULL)][1] = 9;
        })
    }),
    aim(23, "block 64", 6, wrong_value::<0, 64>),
    aim(23, "block 255", 6, wrong_value::<0, 255>),
    aim(23, "second byte 1", 6, wrong_value::<1, 1>),
    aim(23, "second byte 255", 6, wrong_value::<1, 255>),
    aim(23, "closed 2", 6, wrong_value::<4, 2>),
    aim(23, "closed 255", 6, wrong_value::<4, 255>),
    aim(23, "verdict 2", 6, wrong_value::<5, 2>),
    aim(23, "verdict 255", 6, wrong_value::<5, 255>),
    aim(23, "a value past the 4,095th", 3, |random| {
        let findings = FULL + 1 + random.below(4);
        crowded(random, findings, 0, |random, ledger| {
            let month = longest(ledger);
            let past = FULL + random.below(ledger.months[month].len() - FULL);
            spoil(random, &mut ledger.months[month][past]);
        })
    }),
    aim(23, "4,096 findings, a value elsewhere", 3, |random| {
        crowded(random, FULL + 1, 0, |random, ledger| {
            let month = longest(ledger);
            let other = (month + 1 + random.below(MONTHS - 1)) % MONTHS;
            let mut wrong = finding(random, false, false);
            spoil(random, &mut wrong);
            ledger.months[other].push(wrong);
        })
    }),
    aim(24, "4,096 findings", 3, |random| {
        crowded(random, FULL + 1, 0, |random, ledger| {
            let by_script = random.below(2) as u8;
            ledger.months.iter_mut().flatten().for_each(|finding| finding[4] = by_script);
        })
    }),
    Aim { name: "a byte changed", number: None, weight: 40, make: |random| changed(random, 1) },
    Aim { name: "bytes changed", number: None, weight: 20, make: |random| changed(random, 4) },
    Aim {
        name: "any bytes",
        number: None,
        weight: 6,
        make: |random| {
            let size = random.below(200);
            (0..size).map(|_| random.byte()).collect()
        },
    },
];

/// The front of a ledger with findings, of which some are wrong.
fn cut_to(random: &mut Random, size: usize) -> Vec<u8> {
    let mut file = wrong_value::<0, 255>(random);
    file.truncate(size);
    file
}

fn add(file: &mut [u8], at: usize, more: u32) {
    let word = u32::from_le_bytes(file[at..at + 4].try_into().unwrap());
    file[at..at + 4].copy_from_slice(&word.wrapping_add(more).to_le_bytes());
}

/// One of these added to a start (`field` 0) or a length (4) of the table.
fn off(random: &mut Random, field: usize, by: &[u32]) -> Vec<u8> {
    let mut file = small(random).file();
    add(&mut file, 8 * random.below(MONTHS) + field, random.pick(by));
    file
}

/// A body that starts so much earlier and ends where it did.
fn moved(random: &mut Random, by: &[u32]) -> Vec<u8> {
    let mut file = small(random).file();
    let (month, by) = (random.below(MONTHS), random.pick(by));
    add(&mut file, 8 * month, by.wrapping_neg());
    add(&mut file, 8 * month + 4, by);
    file
}

/// Bytes before a month's body that belong to no month.
fn gap(random: &mut Random, month: usize) -> Vec<u8> {
    let bodies = small(random).bodies();
    let mut file = file_of(&bodies);
    let bytes = random.pick(&[1, 2, 6, 6, 8, 12]);
    let at = CONTENTS + bodies[..month].concat().len();
    file.splice(at..at, vec![0; bytes]);
    for later in month..MONTHS {
        add(&mut file, 8 * later, bytes as u32);
    }
    file
}

/// Two entries of the table that differ, each at the other's place.
fn changed_over(random: &mut Random) -> Vec<u8> {
    let mut file = small_with_some(random).file();
    loop {
        let [a, b] = [8 * random.below(MONTHS), 8 * random.below(MONTHS)];
        let entries = [file[a..a + 8].to_vec(), file[b..b + 8].to_vec()];
        if entries[0] != entries[1] {
            file[a..a + 8].copy_from_slice(&entries[1]);
            file[b..b + 8].copy_from_slice(&entries[0]);
            return file;
        }
    }
}

fn longer(random: &mut Random, bytes: usize) -> Vec<u8> {
    let mut file = small(random).file();
    file.resize(file.len() + bytes, 0);
    file
}

fn broken_body(random: &mut Random) -> Vec<u8> {
    let mut bodies = small(random).bodies();
    bodies[random.below(MONTHS)].extend(vec![0; 1 + random.below(5)]);
    file_of(&bodies)
}

/// The file is whole findings, the bodies of two months are not.
fn divided(random: &mut Random) -> Vec<u8> {
    let mut bodies = small(random).bodies();
    let first = random.below(MONTHS - 1);
    let then = first + 1 + random.below(MONTHS - 1 - first);
    let part = if random.one_in(2) { 3 } else { 1 + random.below(5) };
    bodies[first].extend(vec![0; part]);
    bodies[then].extend(vec![0; FINDING - part]);
    file_of(&bodies)
}

/// A table that fits the file modulo 2^32 alone, with lengths of whole findings. 2^32 is 4 more than such a length: one
/// turn leaves a file that is not whole findings, three turns leave one that is.
fn modular(random: &mut Random, turns: usize) -> Vec<u8> {
    let ledger = small(random);
    let mut lengths = ledger.months.each_ref().map(|month| (FINDING * month.len()) as u32);
    let months = crate::bends::some_months(random, turns + 1);
    let (last, turned) = months.split_last().unwrap();
    let mut rest = if turns == 1 { 6 } else { 4 * turns as u32 };
    for &month in turned {
        let back = lengths[month] + 6 * random.below(20) as u32;
        lengths[month] = lengths[month].wrapping_sub(4 + back);
        rest += back;
    }
    lengths[*last] += rest;
    let mut file = Vec::new();
    let mut start = CONTENTS as u32;
    for length in lengths {
        file.extend(start.to_le_bytes());
        file.extend(length.to_le_bytes());
        start = start.wrapping_add(length);
    }
    file.extend(ledger.bodies().concat());
    file.resize(start as usize, 0);
    file
}

/// The byte at a place of a finding, in the first, the last or any finding of a ledger.
fn wrong_value<const AT: usize, const BYTE: u8>(random: &mut Random) -> Vec<u8> {
    let mut file = small_with_some(random).file();
    let findings = (file.len() - CONTENTS) / FINDING;
    let place = match random.below(3) {
        0 => 0,
        1 => findings - 1,
        _ => random.below(findings),
    };
    file[CONTENTS + FINDING * place + AT] = BYTE;
    file
}

/// Any wrong value in a finding.
fn spoil(random: &mut Random, finding: &mut [u8]) {
    let (at, from) = random.pick(&[(0, 64), (1, 1), (4, 2), (5, 2)]);
    finding[at] = if random.one_in(2) { from } else { random.between(from.into(), 255) as u8 };
}

fn longest(ledger: &Ledger) -> usize {
    (0..MONTHS).max_by_key(|&month| ledger.months[month].len()).unwrap()
}

/// A ledger with a month of so many findings, the first, the last or any, changed as is wanted, and bytes at the end of
/// that month's body.
pub fn crowded(random: &mut Random, findings: usize, bytes: usize, change: fn(&mut Random, &mut Ledger)) -> Vec<u8> {
    let mut ledger = small(random);
    let any = random.below(MONTHS);
    let month = random.pick(&[0, MONTHS - 1, any]);
    ledger.months[month] = vec![finding(random, false, true); findings];
    change(random, &mut ledger);
    let mut bodies = ledger.bodies();
    bodies[month].extend(vec![0; bytes]);
    file_of(&bodies)
}

/// A small ledger with up to so many bytes changed, and sometimes cut or made longer.
fn changed(random: &mut Random, most: usize) -> Vec<u8> {
    let mut file = small(random).file();
    for _ in 0..1 + random.below(most) {
        let at = random.below(file.len());
        file[at] = random.odd_byte(file[at].into());
    }
    if most > 1 && random.one_in(4) {
        let size = random.below(2 * file.len());
        file.resize(size, 0);
    }
    file
}
