//! A case file as its five bodies, and names for what stands in them. This knows the layout of the file by itself and
//! asks the reference nothing, so that a file which is made to be accepted is a third opinion on it.

pub const DECOUPLE: u8 = 1;
pub const TWOHAND: u8 = 2;
pub const DIV: u8 = 6;
pub const BOOL: u8 = 4;
pub const EL6900: u8 = 0;
pub const EL6910: u8 = 1;

pub const ORDER_AT: usize = 2;
pub const PARAMETERS_AT: usize = 4;
pub const LINKS_AT: usize = 16;
pub const LARGEST_FILE: usize = 65_536;

#[derive(Clone, Default)]
pub struct Case {
    pub g: Vec<u8>,
    pub i: Vec<u8>,
    pub b: Vec<u8>,
    pub o: Vec<u8>,
    pub t: Vec<u8>,
}

/// A file of bodies, with the table of contents that fits them: start and length of each.
pub fn with_contents(bodies: &[&Vec<u8>]) -> Vec<u8> {
    let mut file = Vec::new();
    let mut start = 8 * bodies.len() as u32;
    for body in bodies {
        file.extend(start.to_le_bytes());
        file.extend((body.len() as u32).to_le_bytes());
        start += body.len() as u32;
    }
    for body in bodies {
        file.extend(*body);
    }
    file
}

impl Case {
    /// The file: the table of contents, then the bodies.
    pub fn file(&self) -> Vec<u8> {
        with_contents(&[&self.g, &self.i, &self.b, &self.o, &self.t])
    }

    /// The bodies of a file whose table of contents is in order.
    pub fn of_file(file: &[u8]) -> Case {
        let body = |n: usize| {
            let word = |at: usize| u32::from_le_bytes(file[at..at + 4].try_into().unwrap()) as usize;
            file[word(8 * n)..][..word(8 * n + 4)].to_vec()
        };
        Case { g: body(0), i: body(1), b: body(2), o: body(3), t: body(4) }
    }

    pub fn device(&self) -> u8 {
        self.g[0]
    }

    pub fn groups(&self) -> usize {
        self.g.len() - 1
    }

    pub fn run_linked(&self, group: usize) -> bool {
        self.g[1 + group] == 1
    }

    pub fn inputs(&self) -> usize {
        self.i.len() / 2
    }

    pub fn input_group(&self, input: usize) -> u8 {
        self.i[2 * input]
    }

    pub fn input_type(&self, input: usize) -> u8 {
        self.i[2 * input + 1]
    }

    pub fn blocks(&self) -> usize {
        self.b.len() / 40
    }

    pub fn block(&self, block: usize) -> &[u8] {
        &self.b[40 * block..][..40]
    }

    pub fn block_mut(&mut self, block: usize) -> &mut [u8] {
        &mut self.b[40 * block..][..40]
    }

    pub fn kind(&self, block: usize) -> u8 {
        self.block(block)[0]
    }

    pub fn group(&self, block: usize) -> u8 {
        self.block(block)[1]
    }

    /// The execution number.
    pub fn order(&self, block: usize) -> u8 {
        self.block(block)[ORDER_AT]
    }

    pub fn set_order(&mut self, block: usize, number: u8) {
        self.block_mut(block)[ORDER_AT] = number;
    }

    pub fn parameter(&self, block: usize, place: usize) -> u8 {
        self.block(block)[PARAMETERS_AT + place]
    }

    /// A 16-bit parameter: TWOHAND's D1 at 2, D2 at 4, T at 6.
    pub fn time(&self, block: usize, place: usize) -> u16 {
        u16::from_le_bytes([self.parameter(block, place), self.parameter(block, place + 1)])
    }

    pub fn link(&self, block: usize, port: usize) -> [u8; 3] {
        self.block(block)[LINKS_AT + 3 * port..][..3].try_into().unwrap()
    }

    pub fn set_link(&mut self, block: usize, port: usize, link: [u8; 3]) {
        self.block_mut(block)[LINKS_AT + 3 * port..][..3].copy_from_slice(&link);
    }

    pub fn outputs(&self) -> usize {
        self.o.len() / 3
    }

    pub fn ports_in(kind: u8) -> usize {
        match kind {
            DECOUPLE => 8,
            TWOHAND => 4,
            _ => 2,
        }
    }

    pub fn ports_out(kind: u8) -> usize {
        match kind {
            DECOUPLE => 8,
            _ => 2,
        }
    }

    pub fn type_in(&self, block: usize, port: usize) -> u8 {
        match self.kind(block) {
            DECOUPLE | TWOHAND => BOOL,
            _ => self.parameter(block, port),
        }
    }

    pub fn type_out(&self, block: usize, port: usize) -> u8 {
        match self.kind(block) {
            DECOUPLE | TWOHAND => BOOL,
            _ if port == 0 => BOOL,
            _ => self.parameter(block, 2),
        }
    }

    pub fn record_size(&self) -> usize {
        2 + self.groups() + 4 * self.inputs()
    }

    pub fn state_size(&self) -> usize {
        self.groups() + 16 * self.blocks()
    }

    pub fn outputs_size(&self) -> usize {
        4 * self.outputs()
    }

    pub fn findings_size(&self) -> usize {
        16 * self.blocks()
    }

    /// Group 0, code 2, the rest 0.
    pub fn fresh(&self) -> Vec<u8> {
        let mut state = vec![0; self.state_size()];
        for block in 0..self.blocks() {
            state[self.groups() + 16 * block] = 2;
        }
        state
    }

    /// A block's 16 bytes in a state.
    pub fn block_state<'a>(&self, state: &'a [u8], block: usize) -> &'a [u8] {
        &state[self.groups() + 16 * block..][..16]
    }
}

/// The least and the greatest value of a type.
pub fn range(ty: u8) -> (i64, i64) {
    match ty {
        0 => (-32_768, 32_767),
        1 => (0, 65_535),
        2 => (-2_147_483_648, 2_147_483_647),
        3 => (0, 4_294_967_295),
        _ => (0, 1),
    }
}

pub fn word_at(bytes: &[u8], at: usize) -> u16 {
    u16::from_le_bytes([bytes[at], bytes[at + 1]])
}
