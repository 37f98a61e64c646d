//! Compares the product's programs with the reference, on random and damaged cases. `compare --help` says how.

mod bends;
mod calls;
mod case;
mod coverage;
mod cycles;
mod damage;
mod ledger;
mod ledger_aims;
mod ledger_coverage;
mod ledger_damage;
mod ledger_sizes;
mod ledgers;
mod pipe;
mod project;
mod protocol;
mod random;
mod renumber;
mod request;
mod texts;
mod traces;

use std::collections::VecDeque;
use std::fs::File;
use std::io::{BufReader, BufWriter, Write};
use std::process::ExitCode;

use calls::CountedCalls;
use ledgers::Ledgers;
use pipe::Server;
use request::{Request, Source};

const HELP: &str = "\
compare --calls N [--seed S] [--small] [--checks] PROGRAM [ARG..]
    Sends N requests to PROGRAM (`batch`, or whatever speaks like it) one by one, and compares each answer with the
    reference's. At the first disagreement it writes the request to a file and ends with status 1. --small: nearly all
    projects are small. --checks: only files are asked about (C), no cycles (Y).
compare --replay FILE PROGRAM [ARG..]
    Sends the requests of FILE and shows both answers to each.
compare --renumber N [--seed S] [--alone] PROGRAM [ARG..]
    Runs PROGRAM (`batch`) on N projects twice, in two execution orders that are alike along every link: sequences of
    cycle calls, refused ones among them, whose answers must be the same, and the reference's. --alone: they are not
    held against the reference's.
compare --ledgers N [--seed S] PROGRAM [ARG..]
    Sends N ledgers (L) to PROGRAM (`batch`), as --calls does. It fails also where something that has to come up does
    not.
compare --years N [--seed S] PROGRAM [ARG..]
    Runs PROGRAM (`ledger`) on N ledgers, and compares what it prints with the reference.
compare --corpus N IN OUT [--renumber M] [--ledgers L] [--seed S]
    Writes N requests over small projects, after them the calls over M renumbered ones, and ledgers of every sort with L
    random ones more, to IN and the reference's answers to OUT; asks no program.
compare --traces N [--seed S] PROGRAM [ARG..]
    Runs PROGRAM (`trace`) on N files, and compares what it prints with the reference.
compare --protocol [--checks] PROGRAM [ARG..]
    Sends PROGRAM (`batch`) requests that break the rules of the pipe, and checks how it ends.
The seed is 1 where none is given. The same seed gives the same requests everywhere.";

#[derive(Default)]
struct Options {
    calls: Option<u64>,
    traces: Option<u64>,
    renumber: Option<u64>,
    ledgers: Option<u64>,
    years: Option<u64>,
    corpus: Option<(u64, String, String)>,
    replay: Option<String>,
    protocol: bool,
    small: bool,
    checks: bool,
    alone: bool,
    seed: u64,
    program: Vec<String>,
}

fn options() -> Result<Options, String> {
    let mut words = std::env::args().skip(1).peekable();
    if words.peek().is_some_and(|word| word == "--help") {
        println!("{HELP}");
        std::process::exit(0);
    }
    let mut options = Options { seed: 1, ..Options::default() };
    while let Some(word) = words.next_if(|word| word.starts_with("--")) {
        let mut value = || words.next().ok_or(format!("{word} needs a value"));
        let number = |text: String| text.parse::<u64>().map_err(|_| format!("{text} is no number"));
        match word.as_str() {
            "--calls" => options.calls = Some(number(value()?)?),
            "--traces" => options.traces = Some(number(value()?)?),
            "--renumber" => options.renumber = Some(number(value()?)?),
            "--ledgers" => options.ledgers = Some(number(value()?)?),
            "--years" => options.years = Some(number(value()?)?),
            "--seed" => options.seed = number(value()?)?,
            "--replay" => options.replay = Some(value()?),
            "--corpus" => options.corpus = Some((number(value()?)?, value()?, value()?)),
            "--small" => options.small = true,
            "--checks" => options.checks = true,
            "--alone" => options.alone = true,
            "--protocol" => options.protocol = true,
            _ => return Err(format!("unknown option {word}\n{HELP}")),
        }
    }
    options.program = words.collect();
    if options.program.is_empty() && options.corpus.is_none() {
        return Err(HELP.to_string());
    }
    Ok(options)
}

fn main() -> ExitCode {
    let done = options().and_then(|options| {
        let (seed, program) = (options.seed, &options.program[..]);
        if let Some((count, requests, answers)) = &options.corpus {
            corpus(*count, &options, requests, answers)
        } else if let Some(file) = &options.replay {
            replay(file, program)
        } else if let Some(count) = options.traces {
            traces::compare(count, seed, program)
        } else if let Some(count) = options.years {
            ledgers::years(count, seed, program)
        } else if let Some(count) = options.renumber {
            renumber::compare(count, seed, options.alone, program)
        } else if options.protocol {
            protocol::compare(options.checks, program)
        } else if let Some(count) = options.ledgers {
            match &compare(count, seed, program, Ledgers::new(seed))?[..] {
                [] => Ok(()),
                _ => Err("something that has to come up did not".to_string()),
            }
        } else if let Some(count) = options.calls {
            compare(count, seed, program, CountedCalls::new(seed, options.small, options.checks)).map(|_| ())
        } else {
            Err(HELP.to_string())
        }
    });
    match done {
        Ok(()) => ExitCode::SUCCESS,
        Err(why) => {
            eprintln!("{why}");
            ExitCode::FAILURE
        }
    }
}

fn start(program: &[String]) -> Result<Server, String> {
    Server::start(program).map_err(|error| format!("{}: {error}", program[0]))
}

/// Sends requests of a source one by one. Gives what has to come up and did not.
fn compare(count: u64, seed: u64, program: &[String], mut source: impl Source) -> Result<Vec<String>, String> {
    println!("seed {seed}, {count} calls, program {}", program.join(" "));
    let mut server = start(program)?;
    let mut last = VecDeque::new();
    let step = (count / 10).max(1);
    for call in 1..=count {
        let (request, expected) = source.next().map_err(|why| format!("call {call}: {why} (seed {seed})"))?;
        let answer = server.ask(&request);
        last.push_back(request.bytes());
        if last.len() > 100 {
            last.pop_front();
        }
        if answer != expected {
            return Err(disagreement(seed, call, &request, &expected, &answer, last, program));
        }
        if call % step == 0 {
            println!("{call} calls, no disagreement");
        }
    }
    let (rest, ended) = server.finish().map_err(|error| error.to_string())?;
    let missing = source.report();
    for what in &missing {
        println!("  did not come up: {what}");
    }
    if !rest.is_empty() || !ended {
        return Err(format!("after the last answer: {} bytes more, ended normally: {ended}", rest.len()));
    }
    println!("{count} calls compared, no disagreement (seed {seed})");
    Ok(missing)
}

/// Writes the request that was answered differently to a file: alone, if the program's answer is the same when it is
/// asked nothing else, or else with the requests before it.
fn disagreement(
    seed: u64,
    call: u64,
    request: &Request,
    expected: &[u8],
    answer: &[u8],
    last: VecDeque<Vec<u8>>,
    program: &[String],
) -> String {
    let bytes = request.bytes();
    let alone = start(program).map(|mut server| server.ask(request)).unwrap_or_default();
    let (content, how) = if alone == answer {
        (bytes, "the request alone")
    } else {
        (last.into_iter().flatten().collect(), "the last requests: alone it is answered differently")
    };
    let name = format!("disagreement-{seed}-{call}.request");
    let written = std::fs::write(&name, content).map_or_else(|error| error.to_string(), |()| how.to_string());
    format!(
        "DISAGREEMENT at call {call} (seed {seed})\n  reference: {}\n  program:   {}\n  {name}: {written}. \
         Replay: --replay {name}",
        request.describe(expected),
        request.describe(answer),
    )
}

fn replay(file: &str, program: &[String]) -> Result<(), String> {
    let mut from = BufReader::new(File::open(file).map_err(|error| format!("{file}: {error}"))?);
    let mut server = start(program)?;
    let (mut count, mut unequal) = (0, 0);
    while let Some(request) = Request::read(&mut from).map_err(|error| format!("{file}: {error}"))? {
        count += 1;
        let expected = request.expected();
        let answer = server.ask(&request);
        if answer == expected {
            println!("request {count}: {}", request.describe(&expected));
        } else {
            unequal += 1;
            println!("request {count}, DISAGREEMENT");
            println!("  reference: {}\n  program:   {}", request.describe(&expected), request.describe(&answer));
        }
    }
    println!("{count} requests, {unequal} answered differently");
    if unequal == 0 {
        Ok(())
    } else {
        Err(format!("{unequal} disagreements"))
    }
}

fn corpus(count: u64, options: &Options, requests: &str, answers: &str) -> Result<(), String> {
    let create = |name: &str| File::create(name).map(BufWriter::new).map_err(|error| format!("{name}: {error}"));
    let (mut to, mut from) = (create(requests)?, create(answers)?);
    let seed = options.seed;
    write(count, CountedCalls::new(seed, true, false), &mut to, &mut from)?;
    if let Some(pairs) = options.renumber {
        renumber::corpus(pairs, seed, &mut to, &mut from)?;
    }
    if let Some(more) = options.ledgers {
        let source = Ledgers::corpus(seed);
        write(source.in_turn() + more, source, &mut to, &mut from)?;
    }
    Ok(())
}

/// Writes requests of a source and the reference's answers. All that has to come up must.
fn write(count: u64, mut source: impl Source, to: &mut impl Write, from: &mut impl Write) -> Result<(), String> {
    let mut bytes = 0;
    for _ in 0..count {
        let (request, answer) = source.next()?;
        let request = request.bytes();
        bytes += request.len();
        to.write_all(&request).map_err(|error| error.to_string())?;
        from.write_all(&answer).map_err(|error| error.to_string())?;
    }
    let missing = source.report();
    if !missing.is_empty() {
        return Err(format!("these did not come up: {}", missing.join("; ")));
    }
    println!("{count} requests written, {bytes} bytes; everything came up");
    Ok(())
}
