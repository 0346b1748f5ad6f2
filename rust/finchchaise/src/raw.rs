//! The library's functions as include/finchchaise.h declares them, and the only unsafe code: a
//! slice is passed as its pointer and its length.

/// The answer to a step; a number of 0 says that it was taken.
#[repr(C)]
pub struct FcStep {
    pub number: u32,
    pub place: u32,
    pub event: u32,
    pub node: u32,
    pub site: u32,
}

/// The answer to a serve; a number of 0 says that nothing was refused.
#[repr(C)]
pub struct FcServe {
    pub made: u32,
    pub last: u32,
    pub number: u32,
    pub place: u32,
}

/// The answer to a link; a number of 0 says that the tables were joined.
#[repr(C)]
pub struct FcLink {
    pub number: u32,
    pub place: u32,
    pub table: u32,
}

unsafe extern "C" {
    fn fc_check(
        table: *const u8,
        table_length: usize,
        scratch: *mut u32,
        scratch_length: usize,
    ) -> u64;

    fn fc_start(
        table: *const u8,
        table_length: usize,
        processes: u32,
        start: *const u32,
        start_length: usize,
        state: *mut u32,
        state_length: usize,
        roll: *mut u32,
        roll_length: usize,
    ) -> u64;

    fn fc_step(
        table: *const u8,
        table_length: usize,
        state: *mut u32,
        state_length: usize,
        roll: *mut u32,
        roll_length: usize,
        process: u32,
    ) -> FcStep;

    fn fc_serve(
        table: *const u8,
        table_length: usize,
        state: *mut u32,
        state_length: usize,
        roll: *mut u32,
        roll_length: usize,
        last: u32,
        turns: u32,
    ) -> FcServe;

    fn fc_latches(
        state: *const u32,
        state_length: usize,
        process: u32,
        out: *mut u32,
        out_length: usize,
    ) -> u32;

    fn fc_link(
        library: *const u8,
        library_length: usize,
        program: *const u8,
        program_length: usize,
        out: *mut u8,
        out_length: usize,
    ) -> FcLink;

    fn fc_joined_length(
        library: *const u8,
        library_length: usize,
        program: *const u8,
        program_length: usize,
    ) -> u32;
}

pub fn check(table: &[u8], scratch: &mut [u32]) -> u64 {
    // SAFETY: both pairs come from slices, and the library proves that it stays within them.
    unsafe {
        fc_check(
            table.as_ptr(),
            table.len(),
            scratch.as_mut_ptr(),
            scratch.len(),
        )
    }
}

pub fn start(
    table: &[u8],
    processes: u32,
    start: &[u32],
    state: &mut [u32],
    roll: &mut [u32],
) -> u64 {
    // SAFETY: as in `check`; the two exclusive borrows overlap nothing.
    unsafe {
        fc_start(
            table.as_ptr(),
            table.len(),
            processes,
            start.as_ptr(),
            start.len(),
            state.as_mut_ptr(),
            state.len(),
            roll.as_mut_ptr(),
            roll.len(),
        )
    }
}

pub fn step(table: &[u8], state: &mut [u32], roll: &mut [u32], process: u32) -> FcStep {
    // SAFETY: as in `start`.
    unsafe {
        fc_step(
            table.as_ptr(),
            table.len(),
            state.as_mut_ptr(),
            state.len(),
            roll.as_mut_ptr(),
            roll.len(),
            process,
        )
    }
}

pub fn serve(table: &[u8], state: &mut [u32], roll: &mut [u32], last: u32, turns: u32) -> FcServe {
    // SAFETY: as in `start`.
    unsafe {
        fc_serve(
            table.as_ptr(),
            table.len(),
            state.as_mut_ptr(),
            state.len(),
            roll.as_mut_ptr(),
            roll.len(),
            last,
            turns,
        )
    }
}

pub fn latches(state: &[u32], process: u32, out: &mut [u32]) -> u32 {
    // SAFETY: as in `check`.
    unsafe {
        fc_latches(
            state.as_ptr(),
            state.len(),
            process,
            out.as_mut_ptr(),
            out.len(),
        )
    }
}

pub fn link(library: &[u8], program: &[u8], out: &mut [u8]) -> FcLink {
    // SAFETY: as in `check`.
    unsafe {
        fc_link(
            library.as_ptr(),
            library.len(),
            program.as_ptr(),
            program.len(),
            out.as_mut_ptr(),
            out.len(),
        )
    }
}

pub fn joined_length(library: &[u8], program: &[u8]) -> u32 {
    // SAFETY: as in `check`.
    unsafe {
        fc_joined_length(
            library.as_ptr(),
            library.len(),
            program.as_ptr(),
            program.len(),
        )
    }
}
