//! Ledgers: what `batch` answers to them and what the program `ledger` prints, against the reference.

use std::collections::VecDeque;

use crate::damage::FILE_ROOM;
use crate::ledger::LARGEST_SHOWN;
use crate::ledger_aims::{Aim, ACCEPTED};
use crate::ledger_coverage::{is_right, Seen};
use crate::ledger_damage::WRONG;
use crate::ledger_sizes::{LARGE, SIZES};
use crate::random::Random;
use crate::request::{Request, Source};
use crate::texts;

/// Aims that are drawn at least this often make small ledgers.
const SMALL: usize = 4;

/// Those of which the corpus has some; of the large ones, the first.
fn usual() -> impl Iterator<Item = &'static Aim> {
    ACCEPTED.iter().chain(&WRONG).chain(&LARGE[..1])
}

/// Those that `batch` has room for.
fn all() -> impl Iterator<Item = &'static Aim> {
    usual().chain(&LARGE[1..])
}

fn draw(random: &mut Random, aims: &[&'static Aim]) -> &'static Aim {
    let mut left = random.below(aims.iter().map(|aim| aim.weight).sum());
    for aim in aims {
        match left.checked_sub(aim.weight) {
            Some(rest) => left = rest,
            None => return aim,
        }
    }
    unreachable!("the number drawn is below the sum")
}

/// Ledgers of each aim in turn, and then of aims that are drawn.
struct Aims {
    random: Random,
    in_turn: VecDeque<&'static Aim>,
    drawn: Vec<&'static Aim>,
}

impl Aims {
    fn next(&mut self) -> (&'static Aim, Vec<u8>) {
        let aim = self.in_turn.pop_front().unwrap_or_else(|| draw(&mut self.random, &self.drawn));
        (aim, (aim.make)(&mut self.random))
    }
}

/// Requests over ledgers.
pub struct Ledgers {
    aims: Aims,
    seen: Seen,
}

impl Ledgers {
    pub fn new(seed: u64) -> Ledgers {
        let aims = Aims { random: Random::new(seed), in_turn: all().collect(), drawn: all().collect() };
        Ledgers { aims, seen: Seen::default() }
    }

    /// For the corpus: every usual aim, the small ones some times over, and then small ones that are drawn.
    pub fn corpus(seed: u64) -> Ledgers {
        let small: Vec<_> = usual().filter(|aim| aim.weight >= SMALL).collect();
        let in_turn = usual().chain(small.iter().copied()).chain(small.iter().copied()).collect();
        let aims = Aims { random: Random::new(seed), in_turn, drawn: small };
        Ledgers { aims, seen: Seen::default() }
    }

    /// The requests before those that are drawn.
    pub fn in_turn(&self) -> u64 {
        self.aims.in_turn.len() as u64
    }
}

impl Source for Ledgers {
    fn next(&mut self) -> Result<(Request, Vec<u8>), String> {
        let (aim, file) = self.aims.next();
        assert!(file.len() <= FILE_ROOM, "batch has room for it");
        let answer = reference::ledger::answer(&file);
        self.seen.ledger(aim, aim.number, &file, answer[0])?;
        if answer[0] == 0 && !is_right(&file, &answer) {
            return Err(format!("{}: the reference's tables are not those of the generator", aim.name));
        }
        Ok((Request::Ledger { file }, answer))
    }

    fn report(&self) -> Vec<String> {
        print!("{}", self.seen.table_text());
        let mut missing = self.seen.missing(&[0, 21, 22, 23, 24]);
        missing.extend(self.seen.missing_large());
        missing
    }
}

/// Runs the program `ledger` on files. To it all that is large is too long.
pub fn years(count: u64, seed: u64, program: &[String]) -> Result<(), String> {
    let shown = || ACCEPTED.iter().chain(&WRONG).chain(&SIZES);
    let mut aims = Aims { random: Random::new(seed), in_turn: shown().collect(), drawn: shown().collect() };
    let mut seen = Seen::default();
    texts::compare("ledger", "ledger", count, seed, program, || {
        let (aim, file) = aims.next();
        let text = reference::ledger::text(&file);
        let wanted = if file.len() > LARGEST_SHOWN { Some(20) } else { aim.number };
        let number = text.strip_prefix("refused ").map_or(0, |rest| rest.trim_end().parse().unwrap_or(255));
        seen.ledger(aim, wanted, &file, number)?;
        Ok((file, text))
    })?;
    print!("{}", seen.table_text());
    println!("{count} ledgers compared, no disagreement (seed {seed})");
    match &seen.missing(&[0, 20, 21, 22, 23, 24])[..] {
        [] => Ok(()),
        missing => Err(format!("these did not come up: {}", missing.join("; "))),
    }
}
