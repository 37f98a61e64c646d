//! Prints the two tables of the ledger on standard input. It reads one byte
//! more than a ledger may have for it, which is enough to turn it down.

use std::io::{self, Read, Write};

use reference::ledger;

fn main() -> io::Result<()> {
    let mut file = Vec::new();
    let most = ledger::MAX_PROGRAM as u64 + 1;
    io::stdin().lock().take(most).read_to_end(&mut file)?;
    io::stdout()
        .lock()
        .write_all(ledger::text(&file).as_bytes())
}
