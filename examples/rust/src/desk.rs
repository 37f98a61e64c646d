//! The library's calls as safe functions over slices. A slice is two arguments in C, a pointer and a length; Rust's
//! borrows give what `include/hagglethwait.h` asks of a caller: no pointer is null, each points to as many bytes as
//! its length says, and what is written overlaps nothing.

mod raw {
    extern "C" {
        pub fn hagglethwait_check(file: *const u8, file_size: usize) -> u8;
        pub fn hagglethwait_sizes(
            file: *const u8,
            file_size: usize,
            state_size: *mut u32,
            outputs_size: *mut u32,
            findings_size: *mut u32,
        ) -> u8;
        pub fn hagglethwait_fresh(
            file: *const u8,
            file_size: usize,
            state: *mut u8,
            state_size: usize,
        ) -> u8;
        pub fn hagglethwait_cycle(
            file: *const u8,
            file_size: usize,
            record: *const u8,
            record_size: usize,
            state: *mut u8,
            state_size: usize,
            outputs: *mut u8,
            outputs_size: usize,
            findings: *mut u8,
            findings_size: usize,
        ) -> i32;
        pub fn hagglethwait_ledger(
            file: *const u8,
            file_size: usize,
            findings: *mut [[u32; 12]; 2],
            dismissed: *mut [[u32; 12]; 2],
            rates: *mut [[f64; 12]; 2],
            bends: *mut [u8; 2],
        ) -> u8;
    }
}

/// The number with which a call is turned down: 1 to 12, a ledger's 21 to 24.
#[derive(Clone, Copy, Debug, PartialEq, Eq)]
pub struct Refused(pub u8);

/// The sizes of an accepted file's buffers, in bytes.
#[derive(Clone, Copy, Debug, PartialEq, Eq)]
pub struct Sizes {
    pub state: usize,
    pub outputs: usize,
    pub findings: usize,
}

fn accepted(number: u8) -> Result<(), Refused> {
    match number {
        0 => Ok(()),
        n => Err(Refused(n)),
    }
}

/// Whether a file is a case file.
pub fn check(file: &[u8]) -> Result<(), Refused> {
    accepted(unsafe { raw::hagglethwait_check(file.as_ptr(), file.len()) })
}

/// The sizes of the buffers that the cycles of a file need.
pub fn sizes(file: &[u8]) -> Result<Sizes, Refused> {
    let (mut state, mut outputs, mut findings) = (0, 0, 0);
    accepted(unsafe {
        raw::hagglethwait_sizes(
            file.as_ptr(),
            file.len(),
            &mut state,
            &mut outputs,
            &mut findings,
        )
    })?;
    Ok(Sizes {
        state: state as usize,
        outputs: outputs as usize,
        findings: findings as usize,
    })
}

/// The fresh state of a file, into a buffer of the exact size.
pub fn fresh(file: &[u8], state: &mut [u8]) -> Result<(), Refused> {
    accepted(unsafe {
        raw::hagglethwait_fresh(file.as_ptr(), file.len(), state.as_mut_ptr(), state.len())
    })
}

/// One cycle of a file's project. Accepted, it gives the count of findings; refused, the buffers are as they were.
pub fn cycle(
    file: &[u8],
    record: &[u8],
    state: &mut [u8],
    outputs: &mut [u8],
    findings: &mut [u8],
) -> Result<usize, Refused> {
    let answer = unsafe {
        raw::hagglethwait_cycle(
            file.as_ptr(),
            file.len(),
            record.as_ptr(),
            record.len(),
            state.as_mut_ptr(),
            state.len(),
            outputs.as_mut_ptr(),
            outputs.len(),
            findings.as_mut_ptr(),
            findings.len(),
        )
    };
    match answer {
        0.. => Ok(answer as usize),
        _ => Err(Refused(-answer as u8)),
    }
}

/// A month of a ledger: its findings, the dismissed ones, and the rate where there is a finding.
#[derive(Clone, Copy, Debug, PartialEq)]
pub struct Line {
    pub findings: u32,
    pub dismissed: u32,
    pub rate: Option<f64>,
}

/// The twelve months, and the bend, counted from 1: the month where the dismissed share of all later months less that of
/// all up to and with it is largest; none where fewer than two months have a finding.
#[derive(Clone, Copy, Debug, PartialEq)]
pub struct Table {
    pub lines: [Line; 12],
    pub bend: Option<u8>,
}

/// The two tables of a ledger: with and without script closings.
pub fn ledger(file: &[u8]) -> Result<[Table; 2], Refused> {
    let (mut findings, mut dismissed) = ([[0; 12]; 2], [[0; 12]; 2]);
    let (mut rates, mut bends) = ([[0.0; 12]; 2], [0; 2]);
    accepted(unsafe {
        raw::hagglethwait_ledger(
            file.as_ptr(),
            file.len(),
            &mut findings,
            &mut dismissed,
            &mut rates,
            &mut bends,
        )
    })?;
    let line = |t: usize, m: usize| Line {
        findings: findings[t][m],
        dismissed: dismissed[t][m],
        rate: (findings[t][m] != 0).then_some(rates[t][m]),
    };
    let table = |t: usize| Table {
        lines: std::array::from_fn(|m| line(t, m)),
        bend: (bends[t] != 0).then_some(bends[t]),
    };
    Ok([table(0), table(1)])
}
