//! Whole traces: what the program `trace` prints against what the reference prints.

use crate::case::{Case, LARGEST_FILE};
use crate::cycles::Machine;
use crate::damage;
use crate::project::{accepted, Size};
use crate::random::Random;
use crate::texts;

pub fn compare(count: u64, seed: u64, program: &[String]) -> Result<(), String> {
    let mut random = Random::new(seed);
    let mut lines = [0u64; 3];
    texts::compare("trace", "case", count, seed, program, || {
        let file = file(&mut random);
        let expected = reference::trace(&file);
        for line in expected.lines() {
            let kind = ["finding", "end", "refused"].iter().position(|word| line.starts_with(word));
            lines[kind.expect("a line of the reference")] += 1;
        }
        Ok((file, expected))
    })?;
    let [findings, ends, refusals] = lines;
    println!(
        "{count} traces compared, no disagreement (seed {seed}): {findings} findings, {ends} ends, {refusals} refusals"
    );
    Ok(())
}

/// A file with a trace, in one case of six damaged.
fn file(random: &mut Random) -> Vec<u8> {
    let size = Size::any(random);
    let mut case = accepted(random, size);
    let room = (LARGEST_FILE - case.file().len()) / case.record_size();
    let records = match random.below(16) {
        0 => 0,
        1 => room,
        2..=5 => random.below(room + 1),
        _ => random.below(200).min(room),
    };
    run(random, &mut case, records);
    match random.below(24) {
        0 => damage::one_byte(random, &case),
        1 => {
            let number = 1 + random.below(9) as u8;
            damage::file(random, &case, number)
        }
        2 if records > 0 => {
            // A record that is refused when its turn comes.
            let size = case.record_size();
            let at = random.below(records) * size;
            let mut record = case.t[at..at + size].to_vec();
            damage::record(random, &case, &mut record);
            record.resize(size, 0);
            case.t[at..at + size].copy_from_slice(&record);
            case.file()
        }
        3 => {
            let length = random.below(300_000);
            (0..length).map(|_| random.byte()).collect()
        }
        _ => case.file(),
    }
}

/// Gives a project this many records, each with an eye on the state that the ones before leave.
fn run(random: &mut Random, case: &mut Case, records: usize) {
    let file = case.file();
    let mut machine = Machine::new(case);
    let mut state = case.fresh();
    let mut outputs = vec![0; case.outputs_size()];
    let mut findings = vec![0; case.findings_size()];
    for _ in 0..records {
        let record = machine.record(random, case, &state);
        reference::cycle(&file, &record, &mut state, &mut outputs, &mut findings);
        case.t.extend(record);
    }
}
