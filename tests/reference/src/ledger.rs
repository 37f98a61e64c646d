//! The ledger of `02-change-requests.md`, request W4: the findings of twelve
//! months, how many were dismissed, the rate, and the month of the bend.
//! [L..] names the entry of AMBIGUITIES.md that was followed.

use std::fmt::Write;

use crate::bytes::u32_at;
use crate::refusal;

pub const MONTHS: usize = 12;
/// "the first body at 96"
const CONTENTS_SIZE: usize = 8 * MONTHS;
const FINDING_SIZE: usize = 6;
/// "up to 4,095 findings a month"
const MAX_FINDINGS: u64 = 4_095;
/// "20 over 65,536 bytes, by the program alone"
pub const MAX_PROGRAM: usize = 65_536;

/// "a month with no finding has no rate" [L19]
#[derive(Clone, Copy, Debug, PartialEq)]
pub enum Share {
    Rate(f64),
    Nothing,
}

/// "a line holds the findings, the dismissed ones and the rate"
#[derive(Clone, Copy, Debug, PartialEq)]
pub struct Line {
    pub findings: u32,
    pub dismissed: u32,
    pub share: Share,
}

#[derive(Clone, Copy, Debug, PartialEq)]
pub struct Table {
    pub lines: [Line; MONTHS],
    /// The month of the bend, 1 to 11.
    pub bend: Option<u8>,
}

/// Findings and dismissed ones of each month.
pub type Counts = [(u32, u32); MONTHS];

/// Where each month's body starts, and its length. Else 21 or 22.
fn contents(file: &[u8]) -> Result<[(u64, u64); MONTHS], u8> {
    if file.len() < CONTENTS_SIZE {
        return Err(refusal::LEDGER_SIZE);
    }
    let mut entries = [(0, 0); MONTHS];
    let mut end = CONTENTS_SIZE as u64;
    for (month, entry) in entries.iter_mut().enumerate() {
        let start = u64::from(u32_at(file, 8 * month));
        let length = u64::from(u32_at(file, 8 * month + 4));
        if start != end || length % FINDING_SIZE as u64 != 0 {
            return Err(refusal::LEDGER_TABLE);
        }
        end += length; // [L2] at most 96 + 12 * 2^32
        *entry = (start, length);
    }
    if end != file.len() as u64 {
        return Err(refusal::LEDGER_TABLE);
    }
    Ok(entries)
}

/// Block, zero, text ID (two bytes, any), closed by script, dismissed [L8].
fn is_right(finding: &[u8]) -> bool {
    finding[0] <= 63 && finding[1] == 0 && finding[4] <= 1 && finding[5] <= 1
}

/// The bodies of the twelve months, or 21 to 24.
fn months(file: &[u8]) -> Result<[&[u8]; MONTHS], u8> {
    let entries = contents(file)?;
    let bodies = entries.map(|(start, length)| &file[start as usize..(start + length) as usize]);
    // [L5] every value before any count
    for body in bodies {
        if !body.chunks_exact(FINDING_SIZE).all(is_right) {
            return Err(refusal::LEDGER_VALUE);
        }
    }
    for (_, length) in entries {
        if length > MAX_FINDINGS * FINDING_SIZE as u64 {
            return Err(refusal::LEDGER_FULL);
        }
    }
    Ok(bodies)
}

/// "the one division of the two counts, each taken as a 64-bit float without
/// loss" [L7]
pub fn share(findings: u32, dismissed: u32) -> Share {
    match findings {
        0 => Share::Nothing,
        _ => Share::Rate(f64::from(dismissed) / f64::from(findings)),
    }
}

/// The month whose later share less its earlier one is largest, in whole
/// numbers [L11] to [L15].
pub fn bend(counts: &Counts) -> Option<u8> {
    let pooled = |months: &[(u32, u32)]| {
        let add = |sum: (i128, i128), one: &(u32, u32)| {
            (sum.0 + i128::from(one.0), sum.1 + i128::from(one.1))
        };
        months.iter().fold((0, 0), add)
    };
    let mut largest: Option<(u8, i128, i128)> = None;
    for month in 1..=MONTHS {
        let (earlier, earlier_dismissed) = pooled(&counts[..month]);
        let (later, later_dismissed) = pooled(&counts[month..]);
        if earlier == 0 || later == 0 {
            continue;
        }
        let over = later_dismissed * earlier - earlier_dismissed * later;
        let under = earlier * later;
        let larger = match largest {
            None => true,
            Some((_, o, u)) => over * u > o * under,
        };
        if larger {
            largest = Some((month as u8, over, under));
        }
    }
    largest.map(|(month, _, _)| month)
}

/// The table of all findings, or of those that a person closed [L9].
fn table(bodies: &[&[u8]; MONTHS], with_script: bool) -> Table {
    let mut counts: Counts = [(0, 0); MONTHS];
    for (body, count) in bodies.iter().zip(&mut counts) {
        for finding in body.chunks_exact(FINDING_SIZE) {
            if with_script || finding[4] == 0 {
                count.0 += 1;
                count.1 += u32::from(finding[5]);
            }
        }
    }
    Table {
        lines: counts.map(|(findings, dismissed)| Line {
            findings,
            dismissed,
            share: share(findings, dismissed),
        }),
        bend: bend(&counts), // [L10]
    }
}

/// "the whole table twice, with and without script closings", or the refusal,
/// 21 to 24.
pub fn tables(file: &[u8]) -> Result<[Table; 2], u8> {
    let bodies = months(file)?;
    Ok([table(&bodies, true), table(&bodies, false)])
}

/// What `batch` answers: the refusal or 0, and if 0 both tables.
pub fn answer(file: &[u8]) -> Vec<u8> {
    let tables = match tables(file) {
        Ok(tables) => tables,
        Err(number) => return vec![number],
    };
    let mut bytes = vec![0];
    for table in tables {
        for line in table.lines {
            let (has, bits) = match line.share {
                Share::Rate(rate) => (1, rate.to_bits()),
                Share::Nothing => (0, 0),
            };
            bytes.extend(line.findings.to_le_bytes());
            bytes.extend(line.dismissed.to_le_bytes());
            bytes.push(has);
            bytes.extend(bits.to_le_bytes());
        }
        bytes.push(table.bend.unwrap_or(0));
    }
    bytes
}

/// Everything the ledger program prints for this file [L16] to [L18].
pub fn text(file: &[u8]) -> String {
    let result = match file.len() {
        0..=MAX_PROGRAM => tables(file),
        _ => Err(refusal::LEDGER_TOO_LONG),
    };
    match result {
        Ok([with, without]) => format!(
            "table with\n{}table without\n{}",
            lines(&with),
            lines(&without)
        ),
        Err(number) => format!("refused {number}\n"),
    }
}

/// Twelve lines and the bend's.
fn lines(table: &Table) -> String {
    let mut text = String::new();
    for (line, month) in table.lines.iter().zip(1..) {
        let rate = match line.share {
            Share::Rate(rate) => format!("{:016x}", rate.to_bits()),
            Share::Nothing => "none".to_string(),
        };
        writeln!(
            text,
            "month {month} {} {} {rate}",
            line.findings, line.dismissed
        )
        .expect("a String takes every write");
    }
    let bend = table
        .bend
        .map_or("none".to_string(), |month| month.to_string());
    text + &format!("bend {bend}\n")
}
