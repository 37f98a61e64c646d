//! Files, states, records and sizes that are wrong somewhere, mostly in one place, and often only just.

use crate::case::*;
use crate::project::parameters;
use crate::random::Random;

/// The most bytes of a file that `batch` has room for: one more than the largest ledger.
pub const FILE_ROOM: usize = 294_937;

/// A file that is likely to be turned down with this number, 1 to 9. Sometimes it is accepted all the same, or turned
/// down with a lower number: the answer is the reference's business.
pub fn file(random: &mut Random, good: &Case, number: u8) -> Vec<u8> {
    let mut case = good.clone();
    match number {
        1 => return size(random, good),
        2 => return contents(random, good),
        3 => groups(random, &mut case),
        4 => inputs(random, &mut case),
        5 => blocks(random, &mut case),
        6 => order(random, &mut case),
        7 => links(random, &mut case),
        8 => outputs(random, &mut case),
        _ => trace(random, &mut case),
    }
    case.file()
}

/// One byte of the file changed, wherever it stands.
pub fn one_byte(random: &mut Random, good: &Case) -> Vec<u8> {
    let mut file = good.file();
    let at = random.below(file.len());
    file[at] = random.odd_byte(usize::from(file[at]));
    file
}

fn size(random: &mut Random, good: &Case) -> Vec<u8> {
    let mut file = good.file();
    let length = match random.below(64) {
        0 => LARGEST_FILE + 1,
        1 => LARGEST_FILE + random.below(100),
        2 if random.one_in(4) => FILE_ROOM,
        3 if random.one_in(4) => LARGEST_FILE + 1 + random.below(65_000),
        4..=12 => 39,
        13..=20 => 0,
        _ => random.below(40),
    };
    if length > file.len() && random.one_in(2) {
        // Whole but for its size: T goes on to the end.
        let mut case = good.clone();
        case.t.resize(case.t.len() + length - file.len(), 0);
        return case.file();
    }
    file.resize(length, random.pick(&[0, 1, 255]));
    file
}

fn contents(random: &mut Random, good: &Case) -> Vec<u8> {
    let mut file = good.file();
    let entry = random.below(10);
    let word = u32::from_le_bytes(file[4 * entry..][..4].try_into().unwrap());
    let other = match random.below(9) {
        0 => {
            file.truncate(file.len() - 1);
            return file;
        }
        1 => {
            file.truncate(40 + random.below(file.len() - 40));
            return file;
        }
        2 => {
            file.resize(file.len() + 1 + random.below(4), 0);
            return file;
        }
        3 => return modular(random, good),
        4 => word.wrapping_add(1),
        5 => word.wrapping_sub(1),
        6 => word ^ 1 << random.below(32),
        7 => random.next() as u32,
        _ => return moved(random, good),
    };
    file[4 * entry..][..4].copy_from_slice(&other.to_le_bytes());
    file
}

/// A table whose sums fit only modulo 2^32.
fn modular(random: &mut Random, good: &Case) -> Vec<u8> {
    let mut file = good.file();
    let word = |file: &[u8], at: usize| u32::from_le_bytes(file[at..at + 4].try_into().unwrap());
    let entry = random.below(4);
    let more = random.pick(&[1, 1 << 31, u32::MAX, 0xFFFF_0000]);
    let length = word(&file, 8 * entry + 4).wrapping_add(more);
    let next = word(&file, 8 * entry).wrapping_add(length);
    let rest = word(&file, 8 * entry + 8).wrapping_add(word(&file, 8 * entry + 12)).wrapping_sub(next);
    file[8 * entry + 4..][..4].copy_from_slice(&length.to_le_bytes());
    file[8 * entry + 8..][..4].copy_from_slice(&next.to_le_bytes());
    file[8 * entry + 12..][..4].copy_from_slice(&rest.to_le_bytes());
    file
}

/// A border between two bodies moved: the table is in order, and the bodies are not what they were.
fn moved(random: &mut Random, good: &Case) -> Vec<u8> {
    let mut file = good.file();
    let entry = random.below(4);
    let word = |file: &[u8], at: usize| u32::from_le_bytes(file[at..at + 4].try_into().unwrap());
    let by = random.pick(&[1u32, 2, 3, 40, u32::MAX, u32::MAX - 1, u32::MAX - 2, u32::MAX - 39]);
    for (at, less) in [(8 * entry + 4, false), (8 * entry + 8, false), (8 * entry + 12, true)] {
        let old = word(&file, at);
        let new = if less { old.wrapping_sub(by) } else { old.wrapping_add(by) };
        file[at..at + 4].copy_from_slice(&new.to_le_bytes());
    }
    file
}

fn groups(random: &mut Random, case: &mut Case) {
    let group = 1 + random.below(case.groups());
    match random.below(7) {
        0 => case.g[0] = random.pick(&[2, 3, 128, 255]),
        1 => case.g.truncate(1),
        2 => case.g.clear(),
        3 => case.g.resize(10, 1),
        4 => case.g.resize(11 + random.below(30), 1),
        5 => case.g[group] = 0,
        _ => case.g[group] = random.odd_byte(1),
    }
}

fn inputs(random: &mut Random, case: &mut Case) {
    if case.inputs() == 0 || random.one_in(4) {
        match random.below(3) {
            0 => case.i.push(0),
            1 => case.i.resize(2 * 129, 0),
            _ => case.i.resize(2 * 128 + 1, 0),
        }
        return;
    }
    let input = random.below(case.inputs());
    if random.one_in(2) {
        case.i[2 * input] = random.odd_byte(case.groups());
    } else {
        case.i[2 * input + 1] = random.odd_byte(5);
    }
}

fn blocks(random: &mut Random, case: &mut Case) {
    let block = random.below(case.blocks());
    let groups = case.groups();
    match random.below(20) {
        0 => case.b.truncate(case.b.len() - 1 - random.below(39)),
        1 => case.b.clear(),
        2 => case.b.push(0),
        3 => case.b.resize(40 * 65, 0),
        4 => case.block_mut(block)[0] = random.odd_byte(7),
        5 => case.block_mut(block)[0] = random.below(8) as u8,
        6 => case.block_mut(block)[1] = random.odd_byte(groups),
        7 => case.block_mut(block)[3] = 1 << random.below(8),
        8 => case.g[0] ^= 1,
        9 => {
            let like = random.pick(&[1, 2, 3, 6]);
            let other = parameters(random, like);
            case.block_mut(block)[PARAMETERS_AT..][..12].copy_from_slice(&other);
        }
        _ => {
            let kind = case.kind(block);
            one_parameter(random, kind, &mut case.block_mut(block)[PARAMETERS_AT..][..12]);
        }
    }
}

fn one_parameter(random: &mut Random, kind: u8, bytes: &mut [u8]) {
    match (kind, random.below(6)) {
        (TWOHAND, 0) => bytes[1] ^= 1 << random.below(5),
        (TWOHAND, 1) => bytes[0] ^= 1 << random.below(5),
        (TWOHAND, 2) => bytes[..2].copy_from_slice(&[random.below(17) as u8, random.below(17) as u8]),
        (TWOHAND, 3..=4) => {
            let time = random.pick(&[1u16, 2_500, 2_501, 60_000, 60_001, 65_535]);
            bytes[random.pick(&[2, 4, 6])..][..2].copy_from_slice(&time.to_le_bytes());
        }
        (3..=6, 0..=3) => bytes[random.below(4)] = random.below(6) as u8,
        _ => bytes[random.below(12)] = random.odd_byte(4),
    }
}

fn order(random: &mut Random, case: &mut Case) {
    let blocks = case.blocks();
    let block = random.below(blocks);
    case.block_mut(block)[2] = match random.below(3) {
        0 => random.odd_byte(blocks),
        _ => case.block(random.below(blocks))[2],
    };
}

fn links(random: &mut Random, case: &mut Case) {
    let block = random.below(case.blocks());
    let port = random.below(8);
    let (inputs, blocks) = (case.inputs(), case.blocks());
    let link = match random.below(8) {
        0 => [0, 0, 0],
        1 => [0, random.below(2) as u8, random.below(2) as u8],
        2 => [1, random.odd_byte(inputs), 0],
        3 => [1, random.below(inputs + 1) as u8, random.below(2) as u8],
        4 => [2, random.odd_byte(blocks), random.below(3) as u8],
        5 => [2, random.below(blocks) as u8, random.below(9) as u8],
        6 => [random.odd_byte(3), random.below(blocks) as u8, 0],
        _ => {
            let mut link = case.link(block, port);
            link[random.below(3)] = random.odd_byte(2);
            link
        }
    };
    case.set_link(block, port, link);
}

fn outputs(random: &mut Random, case: &mut Case) {
    let decouples: Vec<usize> = (0..case.blocks()).filter(|&block| case.kind(block) == DECOUPLE).collect();
    if !decouples.is_empty() && random.one_in(2) {
        let block = random.pick(&decouples);
        let port = random.below(8);
        match random.below(3) {
            0 => case.set_link(block, port, [0; 3]),
            1 => case.o.extend([case.group(block), block as u8, port as u8]),
            _ => case.set_link(block, port, [2, block as u8, random.below(8) as u8]),
        }
        return;
    }
    if case.outputs() == 0 || random.one_in(4) {
        match random.below(4) {
            0 => case.o.push(0),
            1 => case.o.truncate(case.o.len().saturating_sub(1)),
            2 => case.o.resize(3 * 65, 0),
            _ => {
                let (group, block) = (random.below(case.groups()) as u8, random.below(case.blocks()) as u8);
                case.o.extend([group, block, random.below(3) as u8]);
            }
        }
        return;
    }
    let at = 3 * random.below(case.outputs());
    match random.below(4) {
        0 => drop(case.o.drain(at..at + 3)),
        1 => case.o[at] = random.odd_byte(case.groups()),
        2 => case.o[at + 1] = random.odd_byte(case.blocks()),
        _ => case.o[at + 2] = random.pick(&[0, 1, 2, 7, 8, 255]),
    }
}

fn trace(random: &mut Random, case: &mut Case) {
    let size = case.record_size();
    let length = match random.below(4) {
        0 => case.t.len() + 1,
        1 => case.t.len() + size - 1,
        2 => case.t.len().saturating_sub(1),
        _ => case.t.len() + random.below(2 * size + 1),
    };
    case.t.resize(length, 0);
}

/// One field of a state changed. What comes out may be well formed.
pub fn state(random: &mut Random, case: &Case, state: &mut [u8]) {
    if random.one_in(6) {
        state[random.below(case.groups())] = random.pick(&[0, 1, 2, 3, 4, 5, 7, 128, 255]);
        return;
    }
    let block = random.below(case.blocks());
    let kind = case.kind(block);
    let bytes = &mut state[case.groups() + 16 * block..][..16];
    match random.below(8) {
        0 => bytes[0] = random.pick(&[0, 1, 2, 3, 4, 5, 6, 10, 11, 12, 13, 14, 255]),
        1 => bytes[random.pick(&[1, 10, 11])] = 1 << random.below(8),
        2 => diagnosis(random, bytes),
        3 => {
            bytes[0] = 4;
            diagnosis(random, bytes);
        }
        4..=5 if kind == TWOHAND => stored_time(random, case, block, bytes),
        4 => bytes[4 + random.below(6)] = random.odd_byte(0),
        _ => stored_output(random, case, block, bytes),
    }
}

fn diagnosis(random: &mut Random, bytes: &mut [u8]) {
    let diagnosis = match random.below(4) {
        0 => 1 << random.below(16),
        1..=2 => random.pick(&[0, 1, 2, 3, 4, 64, 71, 256]),
        _ => random.next() as u16 & random.pick(&[0x47, 0xFFFF]),
    };
    bytes[2..4].copy_from_slice(&diagnosis.to_le_bytes());
}

/// A pair time or the time since entering, at its limit or beside it, in a state that may keep it or not.
fn stored_time(random: &mut Random, case: &Case, block: usize, bytes: &mut [u8]) {
    let which = random.below(3);
    let limit = i64::from(case.time(block, 2 + 2 * which)) + i64::from(which < 2);
    let time = (limit + random.between(-1, 1)).clamp(0, 65_535) as u16;
    if random.one_in(2) {
        bytes[0] = random.pick(&[1, 2, 3, 5, 11, 11, 12, 12, 13]);
        bytes[2..4].fill(0);
    }
    bytes[4 + 2 * which..][..2].copy_from_slice(&time.to_le_bytes());
}

/// A stored output at a limit of its type or beside it.
fn stored_output(random: &mut Random, case: &Case, block: usize, bytes: &mut [u8]) {
    let kind = case.kind(block);
    let (least, greatest) = match kind {
        DECOUPLE => (0, 255),
        TWOHAND => (0, 0),
        _ => range(case.parameter(block, 2)),
    };
    let value = match random.below(4) {
        0 => least - 1,
        1 => greatest + 1,
        2 => greatest,
        _ => i64::from(random.next() as u32),
    };
    if random.one_in(2) {
        bytes[0] = 1;
        bytes[2..4].fill(0);
    }
    bytes[12..].copy_from_slice(&(value as u32).to_le_bytes());
}

/// A record with one value wrong, or its length.
pub fn record(random: &mut Random, case: &Case, record: &mut Vec<u8>) {
    let group = random.below(case.groups());
    match random.below(8) {
        0 => match random.below(4) {
            0 => record.push(0),
            1 => drop(record.pop()),
            2 => record.clear(),
            _ => record.resize(random.below(2 * record.len()), 0),
        },
        1 => {
            let elapsed = random.pick(&[0u16, 1_001, 1_000, 1_024, 32_768, 65_535]);
            record[..2].copy_from_slice(&elapsed.to_le_bytes());
        }
        2 => record[2 + group] |= 1 << random.below(8),
        3 => record[2 + group] ^= 1 << random.below(5),
        _ if case.inputs() == 0 => record[2 + group] |= 16 << random.below(4),
        _ => {
            let input = random.below(case.inputs());
            let (least, greatest) = range(case.input_type(input));
            let value = match random.below(6) {
                0 => least - 1,
                1 => greatest + 1,
                2 => 0x8000,
                3 => 0xFFFF_7FFF,
                4 => i64::from(1u32 << random.below(32)),
                _ => i64::from(random.next() as u32),
            };
            record[2 + case.groups() + 4 * input..][..4].copy_from_slice(&(value as u32).to_le_bytes());
        }
    }
}

/// A buffer of another length than it had.
pub fn length(random: &mut Random, buffer: &mut Vec<u8>) {
    let old = buffer.len();
    let new = match random.below(8) {
        0 => 0,
        1 => old + 16,
        2 => old.saturating_sub(16),
        3 => old + 4,
        4 => old.saturating_sub(1),
        5 => random.below(2 * old + 2),
        6 if random.one_in(16) => 8_192,
        _ => old + 1,
    };
    buffer.resize(new, 0);
}
