//! Gives the ledger on standard input to the library and prints what the program `ledger` prints.

use desk::{Line, Refused, Table};
use std::io::{self, Read, Write};

/// The library takes a ledger of any size, the program at most so many bytes.
const FILE_MOST: usize = 65_536;
const TOO_LONG: Refused = Refused(20);

fn print_month(out: &mut impl Write, m: usize, line: &Line) -> io::Result<()> {
    write!(out, "month {m} {} {} ", line.findings, line.dismissed)?;
    match line.rate {
        Some(rate) => writeln!(out, "{:016x}", rate.to_bits()),
        None => writeln!(out, "none"),
    }
}

fn print_table(out: &mut impl Write, name: &str, table: &Table) -> io::Result<()> {
    writeln!(out, "table {name}")?;
    for (m, line) in table.lines.iter().enumerate() {
        print_month(out, m + 1, line)?;
    }
    match table.bend {
        Some(m) => writeln!(out, "bend {m}"),
        None => writeln!(out, "bend none"),
    }
}

fn main() -> io::Result<()> {
    let mut file = Vec::new();
    io::stdin().lock().read_to_end(&mut file)?;
    let mut out = io::stdout().lock();
    let answer = match file.len() {
        0..=FILE_MOST => desk::ledger(&file),
        _ => Err(TOO_LONG),
    };
    match answer {
        Ok([every, person]) => {
            print_table(&mut out, "with", &every)?;
            print_table(&mut out, "without", &person)
        }
        Err(Refused(number)) => writeln!(out, "refused {number}"),
    }
}
