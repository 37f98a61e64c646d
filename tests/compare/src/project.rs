//! Projects that the check accepts.

use crate::case::*;
use crate::random::Random;

/// How large a project is made.
#[derive(Clone, Copy, PartialEq, Eq)]
pub enum Size {
    Small,
    Middle,
    Large,
}

impl Size {
    pub fn any(random: &mut Random) -> Size {
        match random.below(32) {
            0 => Size::Large,
            1..=6 => Size::Middle,
            _ => Size::Small,
        }
    }

    pub fn mostly_small(random: &mut Random) -> Size {
        match random.below(64) {
            0 => Size::Large,
            1..=5 => Size::Middle,
            _ => Size::Small,
        }
    }

    /// Mostly with several blocks.
    pub fn several(random: &mut Random) -> Size {
        match random.below(16) {
            0 => Size::Large,
            1..=9 => Size::Middle,
            _ => Size::Small,
        }
    }

    fn blocks(self, random: &mut Random) -> usize {
        match self {
            Size::Small => random.between(1, 3) as usize,
            Size::Middle => random.between(4, 16) as usize,
            Size::Large if random.one_in(3) => 64,
            Size::Large => random.between(17, 64) as usize,
        }
    }

    fn groups(self, random: &mut Random) -> usize {
        match self {
            Size::Small => 1 + random.below(2) + random.below(2),
            _ if random.one_in(4) => 8,
            _ => 1 + random.below(8),
        }
    }

    fn most_inputs(self) -> usize {
        match self {
            Size::Small => 12,
            Size::Middle => 48,
            Size::Large => 128,
        }
    }
}

/// An accepted project with no cycle record.
pub fn accepted(random: &mut Random, size: Size) -> Case {
    let mut plan = Plan { case: Case::default(), channels: Vec::new(), most_inputs: size.most_inputs() };
    let (groups, blocks) = (size.groups(random), size.blocks(random));
    plan.groups(random, groups);
    plan.blocks(random, blocks);
    plan.spare_inputs(random);
    for block in 0..blocks {
        plan.links(random, block);
    }
    if size == Size::Large && random.one_in(3) {
        plan.fill_inputs(random);
    }
    plan.outputs(random);
    plan.close_channels(random);
    plan.case
}

struct Plan {
    case: Case,
    /// Per block the DECOUPLE channels that are in use, a bit each.
    channels: Vec<u8>,
    most_inputs: usize,
}

impl Plan {
    fn groups(&mut self, random: &mut Random, count: usize) {
        let device = if random.one_in(4) { EL6900 } else { EL6910 };
        self.case.g.push(device);
        for _ in 0..count {
            let open = device == EL6900 && random.one_in(2);
            self.case.g.push(u8::from(!open));
        }
    }

    fn blocks(&mut self, random: &mut Random, count: usize) {
        let kinds: &[u8] = match self.case.device() {
            EL6900 => &[1, 2, 2, 2],
            _ => &[1, 1, 2, 2, 2, 3, 4, 5, 6, 6],
        };
        let mut order: Vec<u8> = (0..count as u8).collect();
        for place in (1..count).rev() {
            order.swap(place, random.below(place + 1));
        }
        for number in order {
            let kind = random.pick(kinds);
            let group = random.below(self.case.groups()) as u8;
            let mut record = [0u8; 40];
            record[..3].copy_from_slice(&[kind, group, number]);
            record[PARAMETERS_AT..PARAMETERS_AT + 12].copy_from_slice(&parameters(random, kind));
            self.case.b.extend(record);
            let channels = if random.one_in(8) { 0 } else { random.byte() & random.byte() };
            self.channels.push(if kind == DECOUPLE { channels } else { 0 });
        }
    }

    /// Inputs that perhaps nothing links to.
    fn spare_inputs(&mut self, random: &mut Random) {
        while random.one_in(3) {
            let group = random.below(self.case.groups()) as u8;
            let ty = random.below(5) as u8;
            self.case.i.extend([group, ty]);
        }
    }

    /// As many inputs as there may be.
    fn fill_inputs(&mut self, random: &mut Random) {
        while self.case.inputs() < 128 {
            let group = random.below(self.case.groups()) as u8;
            let ty = random.below(5) as u8;
            self.case.i.extend([group, ty]);
        }
    }

    fn links(&mut self, random: &mut Random, block: usize) {
        let kind = self.case.kind(block);
        for port in 0..Case::ports_in(kind) {
            let ty = self.case.type_in(block, port);
            let wanted = match kind {
                DECOUPLE => self.channels[block] >> port & 1 == 1,
                TWOHAND => self.case.parameter(block, 0) >> port & 1 == 1,
                _ => !random.one_in(8),
            };
            if !wanted {
                continue;
            }
            let link = if random.one_in(3) { self.block_output(random, ty) } else { None };
            let link = link.or_else(|| self.external(random, self.case.group(block), ty));
            let link = link.or_else(|| self.block_output(random, ty));
            // Where there is neither, a block that must be linked is linked to itself.
            let itself = match kind {
                DECOUPLE => [2, block as u8, port as u8],
                TWOHAND => [2, block as u8, 0],
                _ => [0; 3],
            };
            self.case.set_link(block, port, link.unwrap_or(itself));
        }
    }

    /// A link to an external input of this group and type, an old one or a new one.
    fn external(&mut self, random: &mut Random, group: u8, ty: u8) -> Option<[u8; 3]> {
        let case = &mut self.case;
        let fits = |&input: &usize| case.input_group(input) == group && case.input_type(input) == ty;
        let old: Vec<usize> = (0..case.inputs()).filter(fits).collect();
        let room = case.inputs() < self.most_inputs;
        if !old.is_empty() && (!room || random.one_in(4)) {
            return Some([1, random.pick(&old) as u8, 0]);
        }
        if !room {
            return None;
        }
        case.i.extend([group, ty]);
        Some([1, case.inputs() as u8 - 1, 0])
    }

    /// A link to an output port of this type of any block.
    fn block_output(&self, random: &mut Random, ty: u8) -> Option<[u8; 3]> {
        for _ in 0..6 {
            let block = random.below(self.case.blocks());
            let kind = self.case.kind(block);
            let port = random.below(Case::ports_out(kind));
            let dead = kind == DECOUPLE && self.channels[block] >> port & 1 == 0;
            if !dead && self.case.type_out(block, port) == ty {
                return Some([2, block as u8, port as u8]);
            }
        }
        None
    }

    fn outputs(&mut self, random: &mut Random) {
        for block in 0..self.case.blocks() {
            for port in 0..Case::ports_out(self.case.kind(block)) {
                let dead = self.case.kind(block) == DECOUPLE && self.channels[block] >> port & 1 == 0;
                if !dead && random.one_in(3) {
                    self.put_out(block, port);
                }
            }
        }
        while self.case.outputs() > 0 && random.one_in(16) {
            let again = random.below(self.case.outputs());
            self.put_out(usize::from(self.case.o[3 * again + 1]), usize::from(self.case.o[3 * again + 2]));
        }
    }

    fn put_out(&mut self, block: usize, port: usize) {
        if self.case.outputs() < 64 {
            let group = self.case.group(block);
            self.case.o.extend([group, block as u8, port as u8]);
        }
    }

    /// Every channel in use that nothing reads is put out, or else taken out of use, until none is left.
    fn close_channels(&mut self, random: &mut Random) {
        while let Some((block, port)) = self.unread_channel() {
            if self.case.outputs() < 64 && !random.one_in(4) {
                self.put_out(block, port);
            } else {
                self.channels[block] &= !(1 << port);
                self.case.set_link(block, port, [0; 3]);
            }
        }
    }

    fn unread_channel(&self) -> Option<(usize, usize)> {
        let case = &self.case;
        let mut read = vec![0u8; case.blocks()];
        for block in 0..case.blocks() {
            for port in 0..8 {
                let [kind, source, at] = case.link(block, port);
                if kind == 2 {
                    read[usize::from(source)] |= 1 << at;
                }
            }
        }
        for record in case.o.chunks_exact(3) {
            read[usize::from(record[1])] |= 1 << record[2];
        }
        let unread = |block: usize| self.channels[block] & !read[block];
        let block = (0..case.blocks()).find(|&block| unread(block) != 0)?;
        Some((block, unread(block).trailing_zeros() as usize))
    }
}

/// Good parameters of a kind.
pub fn parameters(random: &mut Random, kind: u8) -> [u8; 12] {
    let mut bytes = [0; 12];
    match kind {
        DECOUPLE => {}
        TWOHAND => {
            let pairs = [random.pick(&[1u8, 2, 3, 3, 3, 3]), random.pick(&[1u8, 2, 3, 3, 3, 3])];
            bytes[0] = pairs[0] | pairs[1] << 2;
            bytes[1] = bytes[0] & random.byte() & random.byte();
            for pair in 0..2 {
                let limit = if pairs[pair] == 3 { discrepancy(random) } else { 0 };
                bytes[2 + 2 * pair..][..2].copy_from_slice(&limit.to_le_bytes());
            }
            bytes[6..8].copy_from_slice(&between_pairs(random).to_le_bytes());
        }
        _ => {
            bytes[..3].fill(random.below(4) as u8);
            if !random.one_in(3) {
                bytes[..3].fill_with(|| random.below(4) as u8);
            }
            if kind == DIV {
                bytes[3] = random.below(3) as u8;
            }
        }
    }
    bytes
}

fn discrepancy(random: &mut Random) -> u16 {
    match random.below(8) {
        0..=1 => 0,
        2 => 60_000,
        3 => random.between(59_000, 60_000) as u16,
        4 => random.pick(&[1, 255, 256, 257, 1_000, 59_999]),
        5 => random.between(1, 60_000) as u16,
        _ => random.between(1, 1_500) as u16,
    }
}

fn between_pairs(random: &mut Random) -> u16 {
    match random.below(8) {
        0..=2 => 0,
        3 => 2_500,
        4 => random.pick(&[1, 255, 256, 257, 500, 2_499]),
        _ => random.between(1, 2_500) as u16,
    }
}
