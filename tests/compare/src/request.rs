//! Requests of the program `batch`, their bytes, and the reference's answers to them.

use std::io::{self, Read};

use reference::Answer;

/// Bytes of a month, and of a table, in the answer to a ledger.
const LINE: usize = 17;
const TABLE: usize = 12 * LINE + 1;

#[derive(Clone)]
pub enum Request {
    Check { file: Vec<u8> },
    Ledger { file: Vec<u8> },
    Cycle { file: Vec<u8>, record: Vec<u8>, state: Vec<u8>, outputs: Vec<u8>, findings: Vec<u8> },
}

/// What makes requests one after the other, and knows in the end what came up.
pub trait Source {
    /// The next request, and the reference's answer. `Err` says that it is not what the request was made for.
    fn next(&mut self) -> Result<(Request, Vec<u8>), String>;

    /// Prints what came up; gives what has to and did not.
    fn report(&self) -> Vec<String>;
}

impl Request {
    /// The bytes of the request: its letter, then each buffer with its length in front.
    pub fn bytes(&self) -> Vec<u8> {
        let (letter, buffers) = match self {
            Request::Check { file } => (b'C', vec![file]),
            Request::Ledger { file } => (b'L', vec![file]),
            Request::Cycle { file, record, state, outputs, findings } => {
                (b'Y', vec![file, record, state, outputs, findings])
            }
        };
        let mut bytes = vec![letter];
        for buffer in buffers {
            bytes.extend((buffer.len() as u32).to_le_bytes());
            bytes.extend(buffer);
        }
        bytes
    }

    /// The next request of a file of requests; none where the file ends.
    pub fn read(from: &mut impl Read) -> io::Result<Option<Request>> {
        let mut letter = [0];
        if from.read(&mut letter)? == 0 {
            return Ok(None);
        }
        let mut buffer = || -> io::Result<Vec<u8>> {
            let mut length = [0; 4];
            from.read_exact(&mut length)?;
            let mut bytes = vec![0; u32::from_le_bytes(length) as usize];
            from.read_exact(&mut bytes)?;
            Ok(bytes)
        };
        match letter[0] {
            b'C' => Ok(Some(Request::Check { file: buffer()? })),
            b'L' => Ok(Some(Request::Ledger { file: buffer()? })),
            b'Y' => Ok(Some(Request::Cycle {
                file: buffer()?,
                record: buffer()?,
                state: buffer()?,
                outputs: buffer()?,
                findings: buffer()?,
            })),
            other => Err(io::Error::other(format!("unknown letter {other:#04x}"))),
        }
    }

    /// What the reference answers, as the bytes that `batch` has to write.
    pub fn expected(&self) -> Vec<u8> {
        match self {
            Request::Check { file } => vec![reference::check_file(file)],
            Request::Ledger { file } => reference::ledger::answer(file),
            Request::Cycle { file, record, state, outputs, findings } => {
                let (mut state, mut outputs, mut findings) = (state.clone(), outputs.clone(), findings.clone());
                let answer = reference::cycle(file, record, &mut state, &mut outputs, &mut findings);
                let (refusal, count) = match answer {
                    Answer::Refused(number) => (number, 0),
                    Answer::Findings(count) => (0, count),
                };
                let mut bytes = vec![refusal];
                bytes.extend(count.to_le_bytes());
                bytes.extend(state);
                bytes.extend(outputs);
                bytes.extend(findings);
                bytes
            }
        }
    }

    /// How many bytes an answer has that begins with this one.
    pub fn answer_size(&self, first: u8) -> usize {
        match self {
            Request::Ledger { .. } if first == 0 => 1 + 2 * TABLE,
            Request::Check { .. } | Request::Ledger { .. } => 1,
            Request::Cycle { state, outputs, findings, .. } => 5 + state.len() + outputs.len() + findings.len(),
        }
    }

    /// The state after an accepted cycle, as it stands in the answer.
    pub fn state_after(&self, answer: &[u8]) -> Option<Vec<u8>> {
        match self {
            Request::Cycle { state, .. } if answer[0] == 0 => Some(answer[5..5 + state.len()].to_vec()),
            _ => None,
        }
    }

    /// The answer in words.
    pub fn describe(&self, answer: &[u8]) -> String {
        let Request::Cycle { state, outputs, .. } = self else {
            return match answer {
                [] => "no answer".to_string(),
                [0] => "accepted".to_string(),
                [0, tables @ ..] => format!("accepted{}", tables.chunks(TABLE).map(table).collect::<String>()),
                [number, ..] => format!("refused {number}"),
            };
        };
        let whole = self.answer_size(0);
        if answer.len() < whole {
            return format!("only {} bytes of an answer of {whole}: {}", answer.len(), hex(answer));
        }
        let count = u32::from_le_bytes(answer[1..5].try_into().unwrap());
        let (after, rest) = answer[5..].split_at(state.len());
        let (out, found) = rest.split_at(outputs.len());
        format!(
            "refusal {}, findings {count}\n    state    {}\n    outputs  {}\n    findings {}",
            answer[0],
            hex(after),
            hex(out),
            hex(found)
        )
    }
}

/// A table of a ledger's answer in words: each month's findings, dismissed and rate, then the bend.
fn table(bytes: &[u8]) -> String {
    let backwards = |bytes: &[u8]| hex(&bytes.iter().rev().copied().collect::<Vec<_>>());
    let number = |bytes: &[u8]| bytes.iter().rev().fold(0u64, |high, low| high << 8 | u64::from(*low));
    let mut text = "\n   ".to_string();
    for part in bytes.chunks(LINE) {
        text += &match part {
            [front @ .., has, _, _, _, _, _, _, _, _] if part.len() == LINE => {
                let (findings, dismissed) = front.split_at(4);
                let rate = backwards(&part[9..]);
                format!(" {}/{} {has}:{rate},", number(findings), number(dismissed))
            }
            _ => format!(" bend {}", hex(part)),
        };
    }
    text
}

pub fn hex(bytes: &[u8]) -> String {
    bytes.iter().map(|byte| format!("{byte:02X}")).collect()
}
