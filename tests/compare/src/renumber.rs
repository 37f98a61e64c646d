//! Demand 3: two projects that differ in execution numbers alone, with the order along every link from block to block
//! kept, give the same answers over the same calls, refused ones among them.

use std::io::Write;

use crate::case::Case;
use crate::cycles::{well_formed, Machine};
use crate::damage;
use crate::pipe::Server;
use crate::project::{accepted, Size};
use crate::random::Random;
use crate::request::Request;

/// Cycle calls over each pair of projects.
const CALLS: usize = 20;

/// Runs `count` pairs. Each project of a pair has a program of its own, and is asked the same calls, each from what the
/// last one left. The two answers are held against each other, and but for `alone` against the reference's.
pub fn compare(count: u64, seed: u64, alone: bool, program: &[String]) -> Result<(), String> {
    println!("seed {seed}, {count} renumbered projects, program {}", program.join(" "));
    let start = || Server::start(program).map_err(|error| format!("{}: {error}", program[0]));
    let mut servers = [start()?, start()?];
    let mut random = Random::new(seed);
    let mut seen = Seen::default();
    let step = (count / 10).max(1);
    for number in 1..=count {
        let size = Size::several(&mut random);
        let mut pair = Pair::new(&mut random, size, &mut seen);
        for call in 0..=CALLS {
            let at = format!("project {number}, call {call} (seed {seed})");
            let requests = pair.requests(&mut random, call);
            let expected = expected(&requests).map_err(|why| format!("{at}: {why}"))?;
            let mut answers = [Vec::new(), Vec::new()];
            for ((server, request), answer) in servers.iter_mut().zip(&requests).zip(&mut answers) {
                *answer = server.ask(request);
            }
            // A program that is wrong may still write a whole answer with a refusal that there is.
            let whole = answers[0].len() == expected.len() && answers[0][0] <= 12;
            if answers[0] != answers[1] || !whole || !alone && answers[0] != expected {
                let name = format!("disagreement-{seed}-{number}.request");
                return Err(disagreement(&requests, &expected, &answers, &at, &name));
            }
            pair.carry(&requests[0], &answers[0], &mut seen);
        }
        if number % step == 0 {
            println!("{number} projects, no disagreement");
        }
    }
    for server in servers {
        let (rest, ended) = server.finish().map_err(|error| error.to_string())?;
        if !rest.is_empty() || !ended {
            return Err(format!("after the last answer: {} bytes more, ended normally: {ended}", rest.len()));
        }
    }
    seen.report()?;
    println!("{count} renumbered projects compared, no disagreement (seed {seed})");
    Ok(())
}

/// The reference's answer to both requests, which must be one; files must be accepted.
fn expected(requests: &[Request; 2]) -> Result<Vec<u8>, String> {
    let [answer, other] = requests.each_ref().map(Request::expected);
    match requests[0] {
        _ if answer != other => Err("the reference itself answers the two orders differently".to_string()),
        Request::Check { .. } if answer != [0] => Err(format!("a file made to be accepted is refused {}", answer[0])),
        _ => Ok(answer),
    }
}

/// Writes the calls over `count` pairs of projects of middle size, one request after the other, and the reference's
/// answers.
pub fn corpus(count: u64, seed: u64, to: &mut impl Write, from: &mut impl Write) -> Result<(), String> {
    let mut random = Random::new(seed);
    let mut seen = Seen::default();
    for _ in 0..count {
        let mut pair = Pair::new(&mut random, Size::Middle, &mut seen);
        for call in 0..=CALLS {
            let requests = pair.requests(&mut random, call);
            let answer = expected(&requests)?;
            pair.carry(&requests[0], &answer, &mut seen);
            for request in requests {
                to.write_all(&request.bytes()).map_err(|error| error.to_string())?;
                from.write_all(&answer).map_err(|error| error.to_string())?;
            }
        }
    }
    seen.report()?;
    println!("{count} renumbered projects written (seed {seed})");
    Ok(())
}

/// Writes both requests to a file, and says which answers differ.
fn disagreement(requests: &[Request; 2], expected: &[u8], answers: &[Vec<u8>; 2], at: &str, name: &str) -> String {
    let content: Vec<u8> = requests.iter().flat_map(Request::bytes).collect();
    let written =
        std::fs::write(name, content).map_or_else(|error| error.to_string(), |()| "both requests".to_string());
    let what = if answers[0] == answers[1] { "both orders, not as the reference" } else { "the two orders" };
    let [one, other] = answers.each_ref().map(|answer| requests[0].describe(answer));
    format!(
        "DISAGREEMENT at {at}: {what}\n  reference: {}\n  one order: {one}\n  the other: {other}\n  \
         {name}: {written}. Replay: --replay {name}",
        requests[0].describe(expected),
    )
}

/// Two projects that have to answer alike, and the buffers that are lent to both.
struct Pair {
    case: Case,
    /// The files of the two, and one in which the order along a link is another, where there is one.
    files: [Vec<u8>; 2],
    upset: Option<Vec<u8>>,
    machine: Machine,
    state: Vec<u8>,
    outputs: Vec<u8>,
    findings: Vec<u8>,
}

impl Pair {
    fn new(random: &mut Random, size: Size, seen: &mut Seen) -> Pair {
        let (case, mut other) = loop {
            let case = accepted(random, size);
            match renumbered(random, &case) {
                Some(other) => break (case, other),
                None => seen.passed_over += 1,
            }
        };
        seen.pair(&case, &other);
        let state = if random.one_in(2) { case.fresh() } else { well_formed(random, &case) };
        let mut machine = Machine::new(&case);
        // The second file may have other records in T than the first, since cycle calls do not look at them.
        for _ in 0..random.below(3) {
            other.t.extend(machine.record(random, &case, &state));
        }
        let upset = upset(random, &case).map(|case| case.file());
        seen.upset += u64::from(upset.is_some());
        let mut any = |size: usize| (0..size).map(|_| random.byte()).collect();
        let (outputs, findings) = (any(case.outputs_size()), any(case.findings_size()));
        Pair { files: [case.file(), other.file()], upset, case, machine, state, outputs, findings }
    }

    /// A call for both: first the check of their files, then cycles.
    fn requests(&mut self, random: &mut Random, call: usize) -> [Request; 2] {
        match call {
            0 => self.files.clone().map(|file| Request::Check { file }),
            _ => self.cycles(random),
        }
    }

    /// Takes over what an accepted cycle left. What was wrong with one that is refused is mended in the next.
    fn carry(&mut self, request: &Request, answer: &[u8], seen: &mut Seen) {
        let Request::Cycle { .. } = request else { return };
        seen.call(answer);
        let otherwise = |file: &Vec<u8>| with_file(request, file.clone()).expected() != answer;
        if self.upset.as_ref().is_some_and(otherwise) {
            seen.upset_found += 1;
            self.upset = None;
        }
        if let Some(state) = request.state_after(answer) {
            let (outputs, findings) = answer[5 + state.len()..].split_at(self.outputs.len());
            (self.outputs, self.findings) = (outputs.to_vec(), findings.to_vec());
            self.state = state;
        }
    }

    /// A cycle call, in seven of eighteen cases with something wrong.
    fn cycles(&mut self, random: &mut Random) -> [Request; 2] {
        let mut record = self.machine.record(random, &self.case, &self.state);
        let (mut state, mut outputs, mut findings) = (self.state.clone(), self.outputs.clone(), self.findings.clone());
        let wrong = random.below(18);
        if matches!(wrong, 0..=2 | 6) {
            damage::record(random, &self.case, &mut record);
        }
        if matches!(wrong, 3..=4 | 6) {
            damage::state(random, &self.case, &mut state);
        }
        if matches!(wrong, 5..=6) {
            let lent = random.below(3);
            damage::length(random, [&mut state, &mut outputs, &mut findings][lent]);
        }
        self.files.clone().map(|file| Request::Cycle {
            file,
            record: record.clone(),
            state: state.clone(),
            outputs: outputs.clone(),
            findings: findings.clone(),
        })
    }
}

fn with_file(request: &Request, other: Vec<u8>) -> Request {
    let mut request = request.clone();
    if let Request::Cycle { file, .. } = &mut request {
        *file = other;
    }
    request
}

/// The links from one block to another, as source and reader.
fn links(case: &Case) -> Vec<(usize, usize)> {
    let mut links = Vec::new();
    for reader in 0..case.blocks() {
        for port in 0..8 {
            match case.link(reader, port) {
                [2, source, _] if usize::from(source) != reader => links.push((source.into(), reader)),
                _ => {}
            }
        }
    }
    links
}

/// Whether along every link the source runs before its reader in one project exactly if it does so in the other.
fn keeps_links(case: &Case, other: &Case) -> bool {
    let before = |case: &Case, source, reader| case.order(source) < case.order(reader);
    links(case).into_iter().all(|(source, reader)| before(case, source, reader) == before(other, source, reader))
}

/// The same project with other execution numbers that keep the order along every link: of the blocks that need wait
/// for no other, any one is next. None where that gave the old numbers some times over.
fn renumbered(random: &mut Random, case: &Case) -> Option<Case> {
    let earlier_first = |(a, b): (usize, usize)| if case.order(a) < case.order(b) { (a, b) } else { (b, a) };
    let edges: Vec<(usize, usize)> = links(case).into_iter().map(earlier_first).collect();
    for _ in 0..8 {
        let mut other = case.clone();
        let mut left = vec![true; case.blocks()];
        for number in 0..case.blocks() {
            let waits = |block: usize| edges.iter().any(|&(first, then)| then == block && left[first]);
            let ready: Vec<usize> = (0..case.blocks()).filter(|&block| left[block] && !waits(block)).collect();
            let block = random.pick(&ready);
            left[block] = false;
            other.set_order(block, number as u8);
        }
        assert!(keeps_links(case, &other));
        if other.b != case.b {
            return Some(other);
        }
    }
    None
}

/// The same project with execution numbers that do not keep the order along every link, where a try gave such.
fn upset(random: &mut Random, case: &Case) -> Option<Case> {
    let mut other = case.clone();
    for block in (1..case.blocks()).rev() {
        let with = random.below(block + 1);
        let (a, b) = (other.order(block), other.order(with));
        other.set_order(block, b);
        other.set_order(with, a);
    }
    (!keeps_links(case, &other)).then_some(other)
}

/// What came up.
#[derive(Default)]
struct Seen {
    /// Projects with no second order that keeps the links, or none that came up.
    passed_over: u64,
    renumbered: u64,
    blocks: u64,
    moved: u64,
    linked: u64,
    /// Links from a block that runs later than its reader, and from one that runs earlier.
    links: [u64; 2],
    /// Cycle calls by answer.
    answers: [u64; 13],
    findings: u64,
    several: u64,
    /// Third orders that do not keep the links, and those that the reference answers otherwise.
    upset: u64,
    upset_found: u64,
}

impl Seen {
    fn pair(&mut self, case: &Case, other: &Case) {
        let moved = (0..case.blocks()).filter(|&block| case.order(block) != other.order(block)).count();
        let links = links(case);
        self.renumbered += u64::from(moved > 0);
        self.blocks += case.blocks() as u64;
        self.moved += moved as u64;
        self.linked += u64::from(!links.is_empty());
        for (source, reader) in links {
            self.links[usize::from(case.order(source) < case.order(reader))] += 1;
        }
    }

    fn call(&mut self, answer: &[u8]) {
        let count = u64::from(u32::from_le_bytes(answer[1..5].try_into().unwrap()));
        self.answers[usize::from(answer[0])] += 1;
        self.findings += count;
        self.several += u64::from(count > 1);
    }

    /// Prints what came up; an error where something that has to did not.
    fn report(&self) -> Result<(), String> {
        let rows = [
            ("pairs whose execution numbers differ", self.renumbered),
            ("pairs with a link from one block to another", self.linked),
            ("links from a block that runs earlier", self.links[1]),
            ("links from a block that runs later", self.links[0]),
            ("accepted cycles of both", self.answers[0]),
            ("findings of both", self.findings),
            ("cycles with several findings", self.several),
            ("calls refused 10", self.answers[10]),
            ("calls refused 11", self.answers[11]),
            ("calls refused 12", self.answers[12]),
            ("orders that do not keep the links", self.upset),
            ("of these answered otherwise by the reference", self.upset_found),
        ];
        println!("  {} of {} blocks have another number", self.moved, self.blocks);
        println!("  {} projects more, of which no second order came up", self.passed_over);
        for (what, count) in rows {
            println!("  {count:>9}  {what}");
        }
        match rows.into_iter().find(|(_, count)| *count == 0) {
            Some((what, _)) => Err(format!("did not come up: {what}")),
            None => Ok(()),
        }
    }
}
