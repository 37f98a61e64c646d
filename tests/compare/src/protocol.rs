//! Requests that break the rules of the pipe: the answers given before stand, one line on standard error says which
//! request and why, and the program ends. The reference has no such limits, so this compares with the rules
//! themselves.

use crate::calls::Calls;
use crate::damage::FILE_ROOM;
use crate::ledger_aims::small;
use crate::pipe;
use crate::random::Random;
use crate::request::Request;

const ROOM: [usize; 5] = [FILE_ROOM, 8_192, 8_192, 8_192, 8_192];

pub fn compare(checks: bool, program: &[String]) -> Result<(), String> {
    let mut tried = 0;
    for good in 0..4 {
        for (name, bad) in breaches() {
            let (mut input, mut expected) = (Vec::new(), Vec::new());
            let mut calls = Calls::new(good + 1, true, checks);
            for number in 0..good {
                let (mut request, mut answer) = calls.next()?;
                if number == 1 {
                    request = Request::Ledger { file: small(&mut Random::new(good)).file() };
                    answer = request.expected();
                }
                input.extend(request.bytes());
                expected.extend(answer);
            }
            input.extend(bad);
            let (printed, said, ended) =
                pipe::run(program, &input).map_err(|error| format!("{}: {error}", program[0]))?;
            let said = String::from_utf8_lossy(&said).into_owned();
            let number = (good + 1).to_string();
            let names_it = said.split(|c: char| !c.is_ascii_digit()).any(|word| word == number);
            if printed != expected || !ended || said.lines().count() != 1 || !said.ends_with('\n') || !names_it {
                return Err(format!(
                    "{name}, after {good} good requests: {} bytes of answers where {} were due, \
                     ended normally: {ended}, said {said:?}",
                    printed.len(),
                    expected.len()
                ));
            }
            tried += 1;
        }
    }
    fitting(program)?;
    println!("{tried} breaches of the pipe's rules, each ended with the answers before it and one line");
    println!("buffers that just fit are answered");
    Ok(())
}

/// A request with buffers of these sizes.
fn cycle(sizes: [usize; 5]) -> Vec<u8> {
    let mut bytes = vec![b'Y'];
    for size in sizes {
        bytes.extend((size as u32).to_le_bytes());
        bytes.resize(bytes.len() + size, 0);
    }
    bytes
}

/// A letter and the length of a file.
fn front(letter: u8, size: usize) -> Vec<u8> {
    [&[letter][..], &(size as u32).to_le_bytes()].concat()
}

/// What is not a request, each with its name.
fn breaches() -> Vec<(String, Vec<u8>)> {
    let mut all = vec![
        ("an unknown letter".to_string(), b"Z".to_vec()),
        ("a zero byte".to_string(), vec![0]),
        ("a small c".to_string(), b"c\x01\0\0\0\0".to_vec()),
        ("a small l".to_string(), b"l\x01\0\0\0\0".to_vec()),
    ];
    for (letter, what) in [(b'C', "check"), (b'L', "ledger")] {
        all.push((format!("a file too long for a {what}"), front(letter, FILE_ROOM + 1)));
        all.push((format!("a {what} of 2^32 - 1 bytes"), front(letter, u32::MAX as usize)));
        let whole = [front(letter, 5), b"abcde".to_vec()].concat();
        for end in 1..whole.len() {
            all.push((format!("a {what} broken off at byte {end}"), whole[..end].to_vec()));
        }
    }
    for which in 0..5 {
        let mut sizes = [7; 5];
        sizes[which] = ROOM[which] + 1;
        all.push((format!("buffer {which} of a cycle too long"), cycle(sizes)));
    }
    let whole = cycle([3; 5]);
    for end in 1..whole.len() {
        all.push((format!("a cycle broken off at byte {end}"), whole[..end].to_vec()));
    }
    all
}

/// Buffers that are as long as there is room for.
fn fitting(program: &[String]) -> Result<(), String> {
    let mut input = Vec::new();
    for letter in [b'C', b'L'] {
        input.extend(front(letter, FILE_ROOM));
        input.resize(input.len() + FILE_ROOM, 0);
    }
    input.extend(cycle(ROOM));
    let mut expected = vec![1, 22, 1, 0, 0, 0, 0];
    expected.resize(expected.len() + 3 * 8_192, 0);
    let (printed, said, ended) = pipe::run(program, &input).map_err(|error| format!("{}: {error}", program[0]))?;
    if printed != expected || !said.is_empty() || !ended {
        return Err(format!("buffers that just fit: {} bytes of answers, ended normally: {ended}", printed.len()));
    }
    Ok(())
}
