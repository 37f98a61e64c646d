//! What came up in a run: refusals, and for accepted cycles kinds, phases, state codes, steps from code to code,
//! diagnoses, fractions of quotients, findings.

use std::fmt::Write;

use crate::case::{range, word_at, Case, DIV};
use crate::request::Request;

const KINDS: [&str; 7] = ["", "DECOUPLE", "TWOHAND", "ADD", "SUB", "MUL", "DIV"];
const PHASES: [&str; 4] = ["STOP", "RUN", "RESET", "ERROR"];
const CODES: [usize; 8] = [1, 2, 3, 4, 5, 11, 12, 13];
/// The steps that a TWOHAND can take, from a code to codes.
const STEPS: [(usize, &[usize]); 8] = [
    (1, &[1, 2, 4, 13]),
    (2, &[2, 3, 13]),
    (3, &[2, 3, 4, 11, 12]),
    (4, &[2, 4, 5]),
    (5, &[2, 3, 5, 13]),
    (11, &[1, 2, 3, 4, 11, 13]),
    (12, &[1, 2, 3, 4, 12, 13]),
    (13, &[2, 3, 4, 13]),
];

const ROUNDINGS: [&str; 3] = ["floor", "ceil", "round"];
const SIGNS: [&str; 2] = ["0 or above", "below 0"];
/// The fraction of a quotient; "just" where no remainder of the divisor is nearer to half of it on that side.
const FRACTIONS: [&str; 6] = ["0", "< 1/2", "just <", "1/2", "just >", "> 1/2"];

#[derive(Default)]
pub struct Coverage {
    checks: [u64; 13],
    cycles: [u64; 13],
    codes: [[u64; 16]; 7],
    phases: [[u64; 4]; 7],
    steps: [[u64; 16]; 16],
    diagnoses: [[u64; 8]; 7],
    quotients: [[[u64; 6]; 2]; 3],
    /// Remainders of `round` whose double takes more than 32 bits.
    wide: u64,
    findings: [u64; 4],
    largest: [usize; 5],
}

impl Coverage {
    pub fn add(&mut self, request: &Request, answer: &[u8]) {
        match request {
            Request::Check { .. } => self.checks[usize::from(answer[0])] += 1,
            Request::Ledger { .. } => {}
            Request::Cycle { file, record, state, .. } => {
                self.cycles[usize::from(answer[0])] += 1;
                if answer[0] == 0 {
                    let case = Case::of_file(file);
                    self.cycle(&case, record, state, &answer[5..]);
                    let count = u32::from_le_bytes(answer[1..5].try_into().unwrap()) as usize;
                    self.findings[count.min(3)] += 1;
                    let sizes = [case.groups(), case.inputs(), case.blocks(), case.outputs(), file.len()];
                    for (largest, size) in self.largest.iter_mut().zip(sizes) {
                        *largest = size.max(*largest);
                    }
                }
            }
        }
    }

    fn cycle(&mut self, case: &Case, record: &[u8], old: &[u8], new: &[u8]) {
        for block in 0..case.blocks() {
            let kind = usize::from(case.kind(block));
            let group = usize::from(case.group(block));
            let run = !case.run_linked(group) || record[2 + group] & 1 == 1;
            let phase = match (run, new[group]) {
                (false, _) => 0,
                (true, 0) => 1,
                (true, 3) => 2,
                _ => 3,
            };
            self.phases[kind][phase] += 1;
            let (from, to) = (case.block_state(old, block), case.block_state(new, block));
            self.codes[kind][usize::from(to[0])] += 1;
            if kind == 2 {
                self.steps[usize::from(from[0])][usize::from(to[0])] += 1;
            }
            if to[0] == 4 && from[0] != 4 {
                let diagnosis = word_at(to, 2);
                for bit in 0..8 {
                    self.diagnoses[kind][bit] += u64::from(diagnosis >> bit & 1);
                }
            }
            if case.kind(block) == DIV && to[0] == 1 {
                self.quotient(case, block, record);
            }
        }
    }

    /// The quotient of a DIV that ran, where both inputs are external.
    fn quotient(&mut self, case: &Case, block: usize, record: &[u8]) {
        let values = [0, 1].map(|port| external(case, block, port, record));
        if let [Some(dividend), Some(divisor @ (..=-1 | 1..))] = values {
            let rest = dividend.abs() % divisor.abs();
            let fraction = match 2 * rest - divisor.abs() {
                _ if rest == 0 => 0,
                ..=-3 => 1,
                -2..=-1 => 2,
                0 => 3,
                1..=2 => 4,
                _ => 5,
            };
            let rounding = usize::from(case.parameter(block, 3));
            let below = usize::from(dividend * divisor.signum() < 0);
            self.quotients[rounding][below][fraction] += 1;
            self.wide += u64::from(rounding == 2 && rest >= 1 << 31);
        }
    }

    /// What has to come up and did not, in checks and, where `cycles` were asked for, in cycles.
    pub fn missing(&self, cycles: bool) -> Vec<String> {
        let mut wanted: Vec<_> = (0..=9).map(|n| (self.checks[n], format!("C answered {n}"))).collect();
        if cycles {
            wanted.extend((0..=12).map(|n| (self.cycles[n], format!("Y answered {n}"))));
            wanted.extend((1..7).flat_map(|kind| self.wanted_of(kind)));
            wanted.extend(self.wanted_of_twohand());
            wanted.extend(self.wanted_of_quotients());
            wanted.extend((0..4).map(|count| (self.findings[count], format!("a cycle with {count} findings"))));
        }
        wanted.into_iter().filter(|(seen, _)| *seen == 0).map(|(_, what)| what).collect()
    }

    fn wanted_of(&self, kind: usize) -> Vec<(u64, String)> {
        let name = KINDS[kind];
        let mut wanted = Vec::new();
        for (phase, seen) in self.phases[kind].iter().enumerate() {
            wanted.push((*seen, format!("{name} in phase {}", PHASES[phase])));
        }
        for code in CODES {
            if code <= 2 || kind == 2 || kind > 2 && (code == 4 || code == 5) {
                wanted.push((self.codes[kind][code], format!("{name} in code {code}")));
            }
        }
        if kind > 2 {
            for bit in 0..2 {
                let what = format!("{name} entering 4 with diagnosis {}", bit + 1);
                wanted.push((self.diagnoses[kind][bit], what));
            }
        }
        wanted
    }

    fn wanted_of_twohand(&self) -> Vec<(u64, String)> {
        let mut wanted = Vec::new();
        for (from, to) in STEPS.iter().flat_map(|(from, all)| all.iter().map(move |to| (*from, *to))) {
            wanted.push((self.steps[from][to], format!("TWOHAND from {from} to {to}")));
        }
        for bit in [0, 1, 2, 6] {
            wanted.push((self.diagnoses[2][bit], format!("TWOHAND entering 4 with bit {bit}")));
        }
        wanted
    }

    fn wanted_of_quotients(&self) -> Vec<(u64, String)> {
        let mut wanted = Vec::new();
        for (sign, name) in SIGNS.iter().enumerate() {
            let [floor, ceil, round] = [0, 1, 2].map(|rounding| &self.quotients[rounding][sign]);
            wanted.push((floor[1..].iter().sum(), format!("DIV, floor, {name}, a fraction")));
            wanted.push((ceil[1..].iter().sum(), format!("DIV, ceil, {name}, a fraction")));
            for (fraction, what) in [(2, "just below a half"), (3, "a half"), (4, "just above a half")] {
                wanted.push((round[fraction], format!("DIV, round, {name}, {what}")));
            }
        }
        wanted
    }

    pub fn table(&self) -> String {
        let mut text = String::new();
        row(&mut text, "answer", &(0..=12).map(|n| n.to_string()).collect::<Vec<_>>());
        row(&mut text, "C, files", &counts(&self.checks[..10]));
        row(&mut text, "Y, cycles", &counts(&self.cycles));
        if self.cycles[0] > 0 {
            self.blocks_table(&mut text);
            self.quotients_table(&mut text);
            row(&mut text, "", &[]);
            row(&mut text, "findings in a cycle", &words(&["0", "1", "2", "more"]));
            row(&mut text, "", &counts(&self.findings));
            let [groups, inputs, blocks, outputs, bytes] = self.largest;
            let most = format!("{groups} groups, {inputs} inputs, {blocks} blocks, {outputs} outputs");
            writeln!(text, "  most in an accepted cycle: {most}, a file of {bytes} bytes").unwrap();
        }
        text
    }

    fn blocks_table(&self, text: &mut String) {
        row(text, "", &[]);
        row(text, "blocks after a cycle", &CODES.map(|code| format!("code {code}")));
        for kind in 1..7 {
            row(text, KINDS[kind], &CODES.map(|code| self.codes[kind][code].to_string()));
        }
        row(text, "", &[]);
        row(text, "blocks by phase", &words(&PHASES));
        for kind in 1..7 {
            row(text, KINDS[kind], &counts(&self.phases[kind]));
        }
        row(text, "", &[]);
        row(text, "TWOHAND, from \\ to", &CODES.map(|code| code.to_string()));
        for from in CODES {
            row(text, &from.to_string(), &CODES.map(|to| self.steps[from][to].to_string()));
        }
        row(text, "", &[]);
        row(text, "entering 4, by bit", &words(&["0", "1", "2", "6"]));
        for kind in 2..7 {
            row(text, KINDS[kind], &[0, 1, 2, 6].map(|bit| self.diagnoses[kind][bit].to_string()));
        }
    }

    fn quotients_table(&self, text: &mut String) {
        row(text, "", &[]);
        row(text, "DIV, by fraction", &words(&FRACTIONS));
        for (rounding, signs) in self.quotients.iter().enumerate() {
            for (sign, fractions) in signs.iter().enumerate() {
                row(text, &format!("{}, {}", ROUNDINGS[rounding], SIGNS[sign]), &counts(fractions));
            }
        }
        writeln!(text, "  round, a remainder of 2^31 or more: {}", self.wide).unwrap();
    }
}

pub fn row(text: &mut String, name: &str, cells: &[String]) {
    write!(text, "  {name:<22}").unwrap();
    for cell in cells {
        write!(text, "{cell:>9}").unwrap();
    }
    text.truncate(text.trim_end_matches(' ').len());
    text.push('\n');
}

pub fn counts(numbers: &[u64]) -> Vec<String> {
    numbers.iter().map(u64::to_string).collect()
}

pub fn words(words: &[&str]) -> Vec<String> {
    words.iter().map(|word| word.to_string()).collect()
}

/// The value at an input port that is linked to an external input.
fn external(case: &Case, block: usize, port: usize, record: &[u8]) -> Option<i64> {
    let [kind, input, _] = case.link(block, port);
    let at = 2 + case.groups() + 4 * usize::from(input);
    let word = u32::from_le_bytes(record.get(at..at + 4)?.try_into().unwrap());
    let signed = range(case.type_in(block, port)).0 < 0;
    (kind == 1).then_some(if signed { i64::from(word as i32) } else { i64::from(word) })
}
