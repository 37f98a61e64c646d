//! Evaluates the case file on standard input with the library and prints what the program `trace` prints.

use desk::Refused;
use std::io::{self, Read, Write};

fn word16(b: &[u8]) -> u16 {
    u16::from_le_bytes([b[0], b[1]])
}

fn word32(b: &[u8]) -> u32 {
    u32::from_le_bytes([b[0], b[1], b[2], b[3]])
}

/// Body `e` of G, I, B, O, T of an accepted file.
fn body(file: &[u8], e: usize) -> &[u8] {
    let start = word32(&file[8 * e..]) as usize;
    let size = word32(&file[8 * e + 4..]) as usize;
    &file[start..start + size]
}

/// An input of a block as its line shows it. Arithmetic blocks (kinds 3 to 6) have their inputs' types at the front
/// of their parameters, 0 INT16 and 2 INT32 the signed ones.
fn shown(file: &[u8], block: u8, port: usize, word: u32) -> i64 {
    let record = &body(file, 2)[40 * usize::from(block)..];
    if record[0] >= 3 && matches!(record[4 + port], 0 | 2) {
        i64::from(word as i32)
    } else {
        i64::from(word)
    }
}

fn print_finding(out: &mut impl Write, file: &[u8], cycle: usize, f: &[u8]) -> io::Result<()> {
    let first = shown(file, f[0], 0, word32(&f[8..]));
    let second = shown(file, f[0], 1, word32(&f[12..]));
    let (text, diagnosis) = (word16(&f[2..]), word16(&f[4..]));
    writeln!(
        out,
        "finding {cycle} {} {text} {diagnosis} {first} {second}",
        f[0]
    )
}

/// All cycles of a file from its fresh state. Gives how many there were and how many findings.
fn trace(out: &mut impl Write, file: &[u8]) -> io::Result<Result<(usize, usize), Refused>> {
    let sizes = match desk::check(file).and_then(|()| desk::sizes(file)) {
        Ok(sizes) => sizes,
        Err(refused) => return Ok(Err(refused)),
    };
    let mut state = vec![0; sizes.state];
    let mut outputs = vec![0; sizes.outputs];
    let mut findings = vec![0; sizes.findings];
    if let Err(refused) = desk::fresh(file, &mut state) {
        return Ok(Err(refused));
    }
    let record_size = 2 + (body(file, 0).len() - 1) + 4 * (body(file, 1).len() / 2);
    let (mut cycles, mut found) = (0, 0);
    for record in body(file, 4).chunks_exact(record_size) {
        let count = match desk::cycle(file, record, &mut state, &mut outputs, &mut findings) {
            Ok(count) => count,
            Err(refused) => return Ok(Err(refused)),
        };
        cycles += 1;
        found += count;
        for finding in findings.chunks_exact(16).take(count) {
            print_finding(out, file, cycles, finding)?;
        }
    }
    Ok(Ok((cycles, found)))
}

fn main() -> io::Result<()> {
    let mut file = Vec::new();
    io::stdin().lock().read_to_end(&mut file)?;
    let mut out = io::stdout().lock();
    match trace(&mut out, &file)? {
        Ok((cycles, found)) => writeln!(out, "end {cycles} {found}"),
        Err(Refused(number)) => writeln!(out, "refused {number}"),
    }
}
