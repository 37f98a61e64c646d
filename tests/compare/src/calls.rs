//! An endless sequence of requests: one project after the other, each checked, run from state to state, and damaged
//! in between.

use crate::case::Case;
use crate::coverage::Coverage;
use crate::cycles::{well_formed, Machine};
use crate::damage;
use crate::project::{accepted, Size};
use crate::random::Random;
use crate::request::{Request, Source};

/// Calls, and what came up in them.
pub struct CountedCalls {
    calls: Calls,
    coverage: Coverage,
}

impl CountedCalls {
    pub fn new(seed: u64, small: bool, checks: bool) -> CountedCalls {
        CountedCalls { calls: Calls::new(seed, small, checks), coverage: Coverage::default() }
    }
}

impl Source for CountedCalls {
    fn next(&mut self) -> Result<(Request, Vec<u8>), String> {
        let (request, answer) = self.calls.next()?;
        self.coverage.add(&request, &answer);
        Ok((request, answer))
    }

    fn report(&self) -> Vec<String> {
        print!("{}", self.coverage.table());
        self.coverage.missing(!self.calls.checks)
    }
}

pub struct Calls {
    random: Random,
    small: bool,
    checks: bool,
    case: Case,
    file: Vec<u8>,
    machine: Machine,
    state: Vec<u8>,
    /// Cycles until the next project.
    left: usize,
    /// The state is the one that the last accepted good cycle left.
    carried: bool,
}

impl Calls {
    /// With `small` nearly all projects are small, and files beyond 8,192 bytes rare; with `checks` only files are
    /// asked about.
    pub fn new(seed: u64, small: bool, checks: bool) -> Calls {
        let case = Case { g: vec![0, 0], ..Case::default() };
        Calls {
            random: Random::new(seed),
            small,
            checks,
            machine: Machine::new(&case),
            file: Vec::new(),
            case,
            state: Vec::new(),
            left: 0,
            carried: false,
        }
    }

    /// The next request, and the reference's answer. `Err` says that a file which was made to be accepted is not.
    pub fn next(&mut self) -> Result<(Request, Vec<u8>), String> {
        self.carried = false;
        let request = match self.left {
            0 => self.new_project(),
            _ if self.checks => Request::Check { file: self.any_damaged_file() },
            _ => self.call(),
        };
        let answer = request.expected();
        if self.left == 0 {
            if answer != [0] {
                return Err(format!("a file made to be accepted is refused {}", answer[0]));
            }
            self.left = if self.small { 10 + self.random.below(14) } else { 10 + self.random.below(60) };
        }
        self.left -= 1;
        if self.carried {
            match request.state_after(&answer) {
                Some(state) => self.state = state,
                None => return Err(format!("a cycle made to be accepted is refused {}", answer[0])),
            }
        }
        Ok((request, answer))
    }

    fn new_project(&mut self) -> Request {
        let random = &mut self.random;
        let size = if self.small { Size::mostly_small(random) } else { Size::any(random) };
        self.case = accepted(random, size);
        self.machine = Machine::new(&self.case);
        self.state = self.case.fresh();
        let room = (crate::case::LARGEST_FILE - self.case.file().len()) / self.case.record_size();
        let records = match random.below(8) {
            0..=3 => 0,
            4 if !self.small && random.one_in(16) => room,
            _ => random.below(4).min(room),
        };
        for _ in 0..records {
            let record = self.machine.record(random, &self.case, &self.state);
            self.case.t.extend(record);
        }
        self.file = self.case.file();
        Request::Check { file: self.file.clone() }
    }

    fn call(&mut self) -> Request {
        match self.random.below(100) {
            0..=48 => self.good_cycle(),
            49..=58 => {
                self.state = well_formed(&mut self.random, &self.case);
                self.good_cycle()
            }
            59..=67 => self.damaged(&[State]),
            68..=74 => self.damaged(&[Record]),
            75..=78 => self.damaged(&[Length]),
            79..=96 => self.damaged_file(),
            97 => self.damaged(&[State, Record]),
            98 => self.damaged(&[Length, State]),
            _ => self.damaged(&[Length, Record]),
        }
    }

    /// A cycle with this file and record, and buffers of this project's sizes with any bytes in the two that are only
    /// written.
    fn cycle(&mut self, file: Vec<u8>, record: Vec<u8>) -> Request {
        let mut lent = |size: usize| -> Vec<u8> {
            let random = &mut self.random;
            match random.below(3) {
                0 => vec![0; size],
                1 => vec![0xEE; size],
                _ => (0..size).map(|_| random.byte()).collect(),
            }
        };
        Request::Cycle {
            file,
            record,
            outputs: lent(self.case.outputs_size()),
            findings: lent(self.case.findings_size()),
            state: self.state.clone(),
        }
    }

    fn record(&mut self) -> Vec<u8> {
        self.machine.record(&mut self.random, &self.case, &self.state)
    }

    fn good_cycle(&mut self) -> Request {
        let record = self.record();
        self.carried = true;
        self.cycle(self.file.clone(), record)
    }

    fn damaged(&mut self, parts: &[Part]) -> Request {
        let record = self.record();
        let mut request = self.cycle(self.file.clone(), record);
        for part in parts {
            self.damage(&mut request, *part);
        }
        request
    }

    fn damage(&mut self, request: &mut Request, part: Part) {
        let random = &mut self.random;
        let Request::Cycle { record, state, outputs, findings, .. } = request else { return };
        match part {
            State if state.len() == self.case.state_size() => {
                if random.one_in(3) {
                    *state = well_formed(random, &self.case);
                }
                damage::state(random, &self.case, state);
                while random.one_in(4) {
                    damage::state(random, &self.case, state);
                }
            }
            State => {}
            Record => damage::record(random, &self.case, record),
            Length => match random.below(4) {
                0 => damage::length(random, state),
                1 => damage::length(random, outputs),
                2 => damage::length(random, findings),
                _ => {
                    damage::length(random, state);
                    damage::length(random, findings);
                }
            },
        }
    }

    fn any_damaged_file(&mut self) -> Vec<u8> {
        let random = &mut self.random;
        // Numbers with more rules behind them come more often.
        let number = random.pick(&[1, 2, 2, 3, 3, 4, 4, 5, 5, 5, 5, 5, 6, 6, 7, 7, 7, 8, 8, 9]);
        match random.below(8) {
            0 => damage::one_byte(random, &self.case),
            1..=2 if number > 3 => {
                // Two things wrong: the lower number wins.
                let first = damage::file(random, &self.case, number);
                let other = 3 + random.below(7) as u8;
                let case = Case::of_file(&first);
                if case.blocks() == 0 {
                    first
                } else {
                    damage::file(random, &case, other)
                }
            }
            _ => damage::file(random, &self.case, number),
        }
    }

    fn damaged_file(&mut self) -> Request {
        let mut file = self.any_damaged_file();
        if self.small && file.len() > 8_192 && !self.random.one_in(8) {
            file.clear();
        }
        if self.random.one_in(2) {
            return Request::Check { file };
        }
        let record = self.record();
        let mut request = self.cycle(file, record);
        if self.random.one_in(4) {
            let part = self.random.pick(&[State, Record, Length]);
            self.damage(&mut request, part);
        }
        request
    }
}

#[derive(Clone, Copy)]
enum Part {
    State,
    Record,
    Length,
}
use Part::{Length, Record, State};
