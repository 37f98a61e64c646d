//! The ledger: rates, bends, tables, the program's text, and refusals in their
//! order. [L..] names an entry of AMBIGUITIES.md.

use reference::ledger::{answer, bend, share, tables, text, Counts, Share, MONTHS};

type Finding = [u8; 6];
type Months = [Vec<Finding>; MONTHS];

const GOOD: Finding = [63, 0, 255, 255, 0, 1];

/// The file of these bodies, with a table that fits them.
fn file_of(bodies: &[Vec<u8>; MONTHS]) -> Vec<u8> {
    let mut file = Vec::new();
    let mut start = 96u32;
    for body in bodies {
        file.extend(start.to_le_bytes());
        file.extend((body.len() as u32).to_le_bytes());
        start += body.len() as u32;
    }
    file.extend(bodies.concat());
    file
}

fn file(months: &Months) -> Vec<u8> {
    file_of(&months.each_ref().map(|month| month.concat()))
}

/// Findings and dismissed ones of the first months; the others are empty.
fn counts(first: &[(u32, u32)]) -> Counts {
    let mut all = [(0, 0); MONTHS];
    all[..first.len()].copy_from_slice(first);
    all
}

fn refusal(file: &[u8]) -> u8 {
    tables(file).err().unwrap_or(0)
}

/// A month with so many findings, and the same finding alone in another.
fn crowded(month: usize, findings: usize, other: usize) -> Months {
    let mut months = Months::default();
    months[other] = vec![GOOD];
    months[month] = vec![GOOD; findings];
    months
}

/// The bits of the float nearest to a fraction above 0 and up to 1, by
/// division of whole numbers alone.
fn nearest_bits(over: u64, under: u64) -> u64 {
    // Quotients of 53 bits: from 2^52 on.
    let mut places = 52;
    while over << (places - 52) < under {
        places += 1;
    }
    let (over, under) = (u128::from(over) << places, u128::from(under));
    let (quotient, rest) = ((over / under) as u64, over % under);
    assert_ne!(2 * rest, under, "no fraction lies half way");
    // The leading bit of the quotient adds 1 to the exponent.
    let exponent = 1_022 - (places - 52);
    (exponent << 52) + quotient + u64::from(2 * rest > under)
}

fn bits(findings: u32, dismissed: u32) -> u64 {
    match share(findings, dismissed) {
        Share::Rate(rate) => rate.to_bits(),
        Share::Nothing => panic!("a month with findings has a rate"),
    }
}

#[test]
fn rates_written_down() {
    for (dismissed, findings, wanted) in [
        (0, 1, 0),
        (0, 4095, 0),
        (1, 1, 0x3ff0000000000000),
        (4095, 4095, 0x3ff0000000000000),
        (49, 49, 0x3ff0000000000000),
        (1, 2, 0x3fe0000000000000),
        (1, 3, 0x3fd5555555555555),
        (2, 3, 0x3fe5555555555555),
        (9, 10, 0x3feccccccccccccd),
        (1, 5, 0x3fc999999999999a),
        (1, 7, 0x3fc2492492492492),
        (1, 4095, 0x3f30010010010010),
        (2047, 4095, 0x3fdffdffdffdffe0),
        (4094, 4095, 0x3feffdffdffdffe0),
        (49139, 49140, 0x3fefffd552aa7ffd),
    ] {
        assert_eq!(bits(findings, dismissed), wanted, "{dismissed}/{findings}");
    }
    assert_eq!(share(0, 0), Share::Nothing);
}

/// Every rate that a month can have: nearest, 0 where none and 1 where all
/// were dismissed, and nowhere else.
#[test]
fn every_rate() {
    for findings in 1..=4_095 {
        assert_eq!(bits(findings, 0), 0);
        assert_eq!(bits(findings, findings), 1f64.to_bits());
        for dismissed in 1..findings {
            let rate = bits(findings, dismissed);
            assert_eq!(rate, nearest_bits(dismissed.into(), findings.into()));
            assert!(0 < rate && rate < 1f64.to_bits());
        }
    }
}

#[test]
fn no_bend() {
    assert_eq!(bend(&counts(&[])), None);
    for month in 0..MONTHS {
        let mut alone = counts(&[]);
        alone[month] = (5, 2);
        assert_eq!(bend(&alone), None);
    }
}

/// [L11] The month is on the earlier side, and has a finding of its own.
#[test]
fn sides() {
    assert_eq!(bend(&counts(&[(1, 0), (1, 1)])), Some(1));
    assert_eq!(bend(&counts(&[(1, 1), (1, 0)])), Some(1));
    assert_eq!(bend(&counts(&[(0, 0), (1, 0), (0, 0), (1, 0)])), Some(2));
    for early in 0..MONTHS {
        for late in early + 1..MONTHS {
            let mut two = counts(&[]);
            two[early] = (3, 1);
            two[late] = (2, 1);
            assert_eq!(bend(&two), Some(early as u8 + 1));
        }
    }
}

/// [L12] -1 at month 1, -1/2 at month 2.
#[test]
fn largest_below_zero() {
    assert_eq!(bend(&counts(&[(1, 1), (1, 0), (1, 0)])), Some(2));
}

/// [L13] -3/4 at month 1, -2/3 at month 2; of means both are -3/4.
#[test]
fn shares_are_pooled() {
    assert_eq!(bend(&counts(&[(1, 1), (2, 1), (2, 0)])), Some(2));
}

/// [L14] 2/3 at months 1 and 2; as floats month 2 is ahead.
#[test]
fn the_earliest_of_a_tie() {
    assert_eq!(bend(&counts(&[(1, 0), (2, 1), (1, 1)])), Some(1));
    assert!(1.0 - 1.0 / 3.0 > 2.0 / 3.0);
    assert_eq!(bend(&[(4, 2); MONTHS]), Some(1));
}

/// [L14] Differences that are one float, and not one number.
#[test]
fn near_ties() {
    let evenly = |all: u32, part: u32, parts: u32| all * (part + 1) / parts - all * part / parts;
    for (stretches, wanted) in [
        ([(9_371, 5_565), (2_880, 2_269), (9_611, 9_473)], 4),
        ([(9_221, 753), (2_018, 918), (9_376, 7_813)], 3),
    ] {
        let [(a, l), (b, m), (c, r)] = stretches;
        let share = |dismissed: u32, findings: u32| f64::from(dismissed) / f64::from(findings);
        let first = share(m + r, b + c) - share(l, a);
        let second = share(r, c) - share(l + m, a + b);
        assert_eq!(first.to_bits(), second.to_bits());
        // The outer stretches over three months each.
        let mut all = counts(&[]);
        for part in 0..3 {
            all[part as usize] = (evenly(a, part, 3), evenly(l, part, 3));
            all[4 + part as usize] = (evenly(c, part, 3), evenly(r, part, 3));
        }
        all[3] = (b, m);
        assert_eq!(bend(&all), Some(wanted));
    }
}

/// [L15] The largest products: half of the months none, the others all.
#[test]
fn largest_counts() {
    let mut all = [(4_095, 0); MONTHS];
    for month in &mut all[6..] {
        month.1 = 4_095;
    }
    assert_eq!(bend(&all), Some(6));
    for month in &mut all {
        month.1 = 4_095 - month.1;
    }
    assert_eq!(bend(&all), Some(1));
}

/// [L9] [L10] Counts, rates and bend of the second table are of what a person
/// closed.
#[test]
fn with_and_without() {
    let mut months = Months::default();
    months[0] = vec![
        [0, 0, 0, 0, 0, 0],
        [63, 0, 1, 0, 1, 1],
        [1, 0, 255, 255, 1, 1],
    ];
    months[2] = vec![[2, 0, 0, 1, 1, 1]];
    months[4] = vec![[3, 0, 0, 0, 0, 1], [3, 0, 0, 0, 0, 0]];
    months[11] = vec![[4, 0, 0, 0, 0, 1]];
    let [with, without] = tables(&file(&months)).unwrap();
    let pairs = |lines: &[reference::ledger::Line]| -> Vec<(u32, u32)> {
        lines
            .iter()
            .map(|line| (line.findings, line.dismissed))
            .collect()
    };
    let mut wanted = counts(&[(3, 2), (0, 0), (1, 1), (0, 0), (2, 1)]);
    wanted[11] = (1, 1);
    assert_eq!(pairs(&with.lines), wanted);
    wanted[0] = (1, 0);
    wanted[2] = (0, 0);
    assert_eq!(pairs(&without.lines), wanted);
    assert_eq!(with.lines[2].share, Share::Rate(1.0));
    assert_eq!(without.lines[2].share, Share::Nothing);
    assert_eq!((with.bend, without.bend), (Some(5), Some(1)));
}

/// [L16] [L17] The whole text, and the answer's bytes.
#[test]
fn whole_text() {
    let mut months = Months::default();
    months[0] = vec![
        [0, 0, 0, 0, 0, 0],
        [5, 0, 7, 0, 1, 0],
        [63, 0, 255, 255, 0, 1],
    ];
    months[11] = vec![[9, 0, 0, 0, 1, 1]];
    let file = file(&months);
    let empty = |months: std::ops::RangeInclusive<u8>| -> String {
        months
            .map(|month| format!("month {month} 0 0 none\n"))
            .collect()
    };
    let wanted = [
        "table with\nmonth 1 3 1 3fd5555555555555\n",
        &empty(2..=11),
        "month 12 1 1 3ff0000000000000\nbend 1\n",
        "table without\nmonth 1 2 1 3fe0000000000000\n",
        &empty(2..=12),
        "bend none\n",
    ]
    .concat();
    assert_eq!(text(&file), wanted);
    assert_eq!(wanted.lines().count(), 28);
    let answer = answer(&file);
    assert_eq!(answer.len(), 1 + 2 * (12 * 17 + 1));
    assert_eq!(answer[..9], [0, 3, 0, 0, 0, 1, 0, 0, 0]);
    assert_eq!(answer[9], 1);
    assert_eq!(answer[10..18], 0x3fd5555555555555u64.to_le_bytes());
    assert_eq!(answer[18..35], [0; 17]);
    assert_eq!((answer[205], answer[410]), (1, 0));
}

/// A rate of 0 is sixteen digits like any other.
#[test]
fn digits_of_zero() {
    let mut months = Months::default();
    months[6] = vec![[0; 6]];
    assert!(text(&file(&months)).contains("month 7 1 0 0000000000000000\n"));
}

#[test]
fn refused_21() {
    for size in 0..96 {
        assert_eq!(refusal(&vec![255; size]), 21);
    }
    assert_eq!(answer(&[0; 95]), [21]);
    assert_eq!(text(&[0; 95]), "refused 21\n");
    assert_eq!(refusal(&file(&Months::default())), 0);
    assert_eq!(refusal(&[0; 96]), 22);
}

/// [L1] Every word of the table counts, and so does the end of the file.
#[test]
fn refused_22_table() {
    let mut months = Months::default();
    months[3] = vec![GOOD; 4];
    months[11] = vec![GOOD];
    let good = file(&months);
    assert_eq!(refusal(&good), 0);
    for at in 0..96 {
        for bit in 0..8 {
            let mut bad = good.clone();
            bad[at] ^= 1 << bit;
            assert_eq!(refusal(&bad), 22, "bit {bit} of byte {at}");
        }
    }
    for size in (96..good.len()).chain(good.len() + 1..good.len() + 20) {
        let mut bad = good.clone();
        bad.resize(size, 0);
        assert_eq!(refusal(&bad), 22, "{size} bytes");
    }
}

/// [L2] Tables that fit modulo 2^32, with lengths of whole findings.
#[test]
fn refused_22_modulo() {
    let turn = 0u32.wrapping_sub(4);
    for (lengths, size) in [
        (vec![turn, 6], 98),
        (vec![turn, 12], 104),
        (vec![turn, turn, turn, 12], 96),
        (vec![6, turn, turn, 6, turn, 12], 108),
    ] {
        let mut bad = Vec::new();
        let mut start = 96u32;
        for month in 0..MONTHS {
            let length = lengths.get(month).copied().unwrap_or(0);
            assert_eq!(length % 6, 0);
            bad.extend(start.to_le_bytes());
            bad.extend(length.to_le_bytes());
            start = start.wrapping_add(length);
        }
        assert_eq!(start, size);
        bad.resize(size as usize, 0);
        assert_eq!(refusal(&bad), 22);
    }
}

/// [L4] Each body by itself is whole findings.
#[test]
fn refused_22_bodies() {
    for (first, second) in [(3, 3), (1, 5), (2, 10), (6, 5), (1, 0), (0, 7)] {
        let mut bodies: [Vec<u8>; MONTHS] = Default::default();
        bodies[2] = vec![0; first];
        bodies[7] = vec![0; second];
        assert_eq!(refusal(&file_of(&bodies)), 22, "{first} and {second}");
    }
    let mut bodies: [Vec<u8>; MONTHS] = Default::default();
    bodies[2] = vec![0; 4_096 * 6 + 1];
    assert_eq!(refusal(&file_of(&bodies)), 22);
}

/// [L8] Each value at its limit, in the first finding, the last and between.
#[test]
fn refused_23() {
    for place in [0, 2, 4] {
        for (at, least_wrong) in [(0, 64), (1, 1), (2, 256), (3, 256), (4, 2), (5, 2)] {
            for value in 0..=255u8 {
                let mut months = Months::default();
                months[0] = vec![GOOD; 2];
                months[5] = vec![GOOD; 2];
                months[11] = vec![GOOD];
                let mut file = file(&months);
                file[96 + 6 * place + at] = value;
                let wanted = if u16::from(value) < least_wrong {
                    0
                } else {
                    23
                };
                assert_eq!(refusal(&file), wanted, "{value} at {at} of {place}");
            }
        }
    }
}

#[test]
fn refused_24() {
    for month in [0, 5, 11] {
        assert_eq!(refusal(&file(&crowded(month, 4_095, 3))), 0);
        assert_eq!(refusal(&file(&crowded(month, 4_096, 3))), 24);
    }
    let full: Months = std::array::from_fn(|_| vec![GOOD; 4_095]);
    assert_eq!(file(&full).len(), 294_936);
    let [with, _] = tables(&file(&full)).unwrap();
    assert_eq!(
        with.lines.iter().map(|line| line.findings).sum::<u32>(),
        49_140
    );
    let mut uneven = full;
    let moved = uneven[0].pop().unwrap();
    uneven[11].push(moved);
    assert_eq!(refusal(&file(&uneven)), 24);
}

/// [L5] The first of 21, 22, 23 and 24 that applies.
#[test]
fn order() {
    let mut months = crowded(4, 4_097, 0);
    assert_eq!(refusal(&file(&months)), 24);
    for (month, place) in [(0, 0), (4, 0), (4, 4_094), (4, 4_095), (4, 4_096)] {
        months[month][place][4] = 2;
        let mut bad = file(&months);
        assert_eq!(refusal(&bad), 23, "value at {place} of month {month}");
        bad.push(0);
        assert_eq!(refusal(&bad), 22);
        bad.truncate(95);
        assert_eq!(refusal(&bad), 21);
        months[month][place][4] = 0;
    }
    months[11] = vec![[0, 0, 0, 0, 0, 255]];
    assert_eq!(refusal(&file(&months)), 23);
}

/// [L6] 20 is the program's alone, and before all others.
#[test]
fn refused_20() {
    let sized = |findings: usize| {
        let mut months = Months::default();
        for place in 0..findings {
            months[place / 4_000].push(GOOD);
        }
        file(&months)
    };
    let shown = sized(10_906);
    assert_eq!(shown.len(), 65_532);
    assert!(text(&shown).starts_with("table with\nmonth 1 4000 4000 3ff0000000000000\n"));
    let mut padded = shown;
    for size in 65_533..=65_536 {
        padded.resize(size, 0);
        assert_eq!(text(&padded), "refused 22\n");
    }
    padded.push(0);
    assert_eq!(text(&padded), "refused 20\n");
    assert_eq!(answer(&padded), [22]);
    let longer = sized(10_907);
    assert_eq!(text(&longer), "refused 20\n");
    assert_eq!(refusal(&longer), 0);
}
