//! Cycle records as a running machine would give them, and well-formed states, reachable or not.

use crate::case::*;
use crate::random::Random;

/// What stands at the terminals of a project from cycle to cycle.
pub struct Machine {
    inputs: Vec<i64>,
}

impl Machine {
    pub fn new(case: &Case) -> Machine {
        Machine { inputs: vec![0; case.inputs()] }
    }

    /// A well-formed record that a project in this state, or one much like it, may get.
    pub fn record(&mut self, random: &mut Random, case: &Case, state: &[u8]) -> Vec<u8> {
        let mut record = elapsed(random, case, state).to_le_bytes().to_vec();
        for group in 0..case.groups() {
            record.push(group_byte(random, case, group, state[group]));
        }
        self.turn_analogs(random, case, state);
        for block in 0..case.blocks() {
            match case.kind(block) {
                TWOHAND => self.move_hands(random, case, state, block),
                DIV => self.turn_quotient(random, case, state, block),
                _ => {}
            }
        }
        for input in &self.inputs {
            record.extend((*input as u32).to_le_bytes());
        }
        record
    }

    fn turn_analogs(&mut self, random: &mut Random, case: &Case, state: &[u8]) {
        let mut failed = 0u8;
        for block in 0..case.blocks() {
            if case.block_state(state, block)[0] == 4 {
                failed |= 1 << case.group(block);
            }
        }
        for input in 0..case.inputs() {
            let ty = case.input_type(input);
            // The inputs of a group with a fault often go back to something harmless, so that it can be acknowledged.
            if failed >> case.input_group(input) & 1 == 1 && random.one_in(2) {
                self.inputs[input] = random.between(0, 1);
            } else if random.one_in(4) {
                self.inputs[input] = value(random, ty);
            }
        }
    }

    /// Moves the hands on the buttons of one TWOHAND, with an eye on its state, as far as its inputs are external.
    fn move_hands(&mut self, random: &mut Random, case: &Case, state: &[u8], block: usize) {
        let active = case.parameter(block, 0);
        let any = random.byte() & active;
        let (first, second) = (active & 0b0011, active & 0b1100);
        let wanted = match (case.block_state(state, block)[0], random.below(10)) {
            (1, 0..=6) => active,
            (2 | 5 | 13, 0..=6) => 0,
            (3, 0..=2) => first,
            (3, 3..=4) => second,
            (3, 5..=6) => active,
            (3, 7) => 0,
            (4, 0..=4) => 0,
            (11 | 12, 0..=3) => active,
            (11, 4) | (12, 5..=6) => second,
            (12, 4) | (11, 5..=6) => first,
            (11 | 12, 7) => 0,
            (_, 8) => return,
            _ => any,
        };
        for port in 0..4 {
            let [kind, input, _] = case.link(block, port);
            if kind == 1 {
                let raw = wanted ^ case.parameter(block, 1);
                self.inputs[usize::from(input)] = i64::from(raw >> port & 1);
            }
        }
    }

    /// Often gives a DIV that is not in ERROR and has two external inputs a remainder at half the divisor, next to that
    /// or next to the divisor; the divisor is often at a limit of its type.
    fn turn_quotient(&mut self, random: &mut Random, case: &Case, state: &[u8], block: usize) {
        let [[kind, dividend, _], [other_kind, divisor, _]] = [0, 1].map(|port| case.link(block, port));
        if kind != 1 || other_kind != 1 || case.block_state(state, block)[0] == 4 || random.one_in(2) {
            return;
        }
        let [(least, greatest), (least_by, greatest_by)] = [0, 1].map(|port| range(case.type_in(block, port)));
        let some = value(random, case.type_in(block, 1));
        // Only even divisors have halves.
        let by = random.pick(&[some, some, least_by, greatest_by]) & !random.between(0, 1);
        let (whole, half) = (by.abs(), by.abs() / 2);
        let rest = random.pick(&[half - 1, half, half, half + 1, whole - 1]);
        let (sign, times) = (random.pick(&[1, -1]), random.between(0, 2));
        let fitting = [sign * (times * whole + rest), sign * rest, rest];
        match fitting.into_iter().find(|of| (least..=greatest).contains(of)) {
            Some(of) if whole > 1 => {
                self.inputs[usize::from(divisor)] = by;
                self.inputs[usize::from(dividend)] = of;
            }
            _ => {}
        }
    }
}

fn group_byte(random: &mut Random, case: &Case, group: usize, old: u8) -> u8 {
    let run = case.run_linked(group) && !random.one_in(12);
    let err_ack = match old {
        1 => !random.one_in(3),
        3 => random.one_in(2),
        _ => random.one_in(8),
    };
    let com_err = random.one_in(48);
    let module_fault = case.device() == EL6910 && random.one_in(48);
    u8::from(run) | u8::from(err_ack) << 1 | u8::from(com_err) << 2 | u8::from(module_fault) << 3
}

/// The elapsed time, often such that a stored time lands on its limit or just past it.
fn elapsed(random: &mut Random, case: &Case, state: &[u8]) -> u16 {
    if random.one_in(2) {
        let block = random.below(case.blocks());
        if case.kind(block) == TWOHAND {
            let bytes = case.block_state(state, block);
            let left = match random.below(3) {
                pair @ 0..=1 => i64::from(case.time(block, 2 + 2 * pair)) + 1 - i64::from(word_at(bytes, 4 + 2 * pair)),
                _ => i64::from(case.time(block, 6)) - i64::from(word_at(bytes, 8)),
            };
            let time = left + random.between(-1, 1);
            if (1..=1_000).contains(&time) {
                return time as u16;
            }
        }
    }
    match random.below(6) {
        0 => 1,
        1 => 1_000,
        2 => random.between(1, 1_000) as u16,
        _ => random.pick(&[2, 10, 10, 20, 100, 250, 255, 256, 500, 999]),
    }
}

/// A value of a type: small, at a limit of some type, or any.
pub fn value(random: &mut Random, ty: u8) -> i64 {
    let (least, greatest) = range(ty);
    let power = 1i64 << random.pick(&[0, 3, 15, 16, 31, 32]);
    let value = match random.below(8) {
        0..=2 => random.between(-3, 9),
        3 => least + random.between(0, 2),
        4 => greatest - random.between(0, 2),
        5 => random.pick(&[power, -power]) + random.between(-1, 1),
        6 => random.between(-400, 400),
        _ => random.between(least, greatest),
    };
    if value < least || greatest < value {
        random.between(0, 1)
    } else {
        value
    }
}

/// Any well-formed state, its times and values often at their limits.
pub fn well_formed(random: &mut Random, case: &Case) -> Vec<u8> {
    let mut state = Vec::new();
    for _ in 0..case.groups() {
        state.push(random.pick(&[0, 0, 0, 1, 3]));
    }
    for block in 0..case.blocks() {
        state.extend(well_formed_block(random, case, block));
    }
    state
}

fn well_formed_block(random: &mut Random, case: &Case, block: usize) -> [u8; 16] {
    let mut bytes = [0; 16];
    match case.kind(block) {
        DECOUPLE => {
            bytes[0] = random.pick(&[1, 1, 2]);
            if bytes[0] == 1 {
                bytes[12] = random.byte();
            }
        }
        TWOHAND => two_hand_block(random, case, block, &mut bytes),
        _ => {
            bytes[0] = random.pick(&[1, 1, 1, 2, 4, 5]);
            if bytes[0] == 1 {
                let value = value(random, case.parameter(block, 2));
                bytes[12..].copy_from_slice(&(value as u32).to_le_bytes());
            }
            if bytes[0] == 4 {
                bytes[2] = random.pick(&[1, 2]);
            }
        }
    }
    bytes
}

fn two_hand_block(random: &mut Random, case: &Case, block: usize, bytes: &mut [u8; 16]) {
    let limits = [case.time(block, 2), case.time(block, 4)];
    let between = case.time(block, 6);
    bytes[0] = random.pick(&[1, 2, 3, 4, 5, 11, 11, 11, 12, 12, 13]);
    if matches!(bytes[0], 1 | 3 | 11 | 12 | 13) {
        for (pair, limit) in limits.into_iter().enumerate() {
            if limit > 0 && random.one_in(2) {
                let stored = at_most(random, u32::from(limit) + 1);
                bytes[4 + 2 * pair..][..2].copy_from_slice(&(stored as u16).to_le_bytes());
            }
        }
    }
    if matches!(bytes[0], 11 | 12) {
        bytes[8..10].copy_from_slice(&(at_most(random, between.into()) as u16).to_le_bytes());
    }
    if bytes[0] == 4 {
        let mut allowed = 0x40;
        for (bit, limit) in [limits[0], limits[1], between].into_iter().enumerate() {
            allowed |= u8::from(limit > 0) << bit;
        }
        bytes[2] = random.byte() & allowed;
        if bytes[2] == 0 {
            bytes[2] = 0x40;
        }
    }
}

fn at_most(random: &mut Random, limit: u32) -> u32 {
    match random.below(4) {
        0 => limit,
        1 => limit.saturating_sub(1),
        2 => limit.saturating_sub(random.below(1_001) as u32),
        _ => random.below(limit as usize + 1) as u32,
    }
}
