//! The re-implementation's entry points for timing, as the archive of its crate `timed` exports them.
//! A lent slice goes over as a pointer and a length. Nothing checks these lines against its source.

mod foreign {
    unsafe extern "C" {
        pub fn timed_transfers(
            table: *const u64,
            table_length: usize,
            bytes: *const u8,
            bytes_length: usize,
            first: usize,
            turns: usize,
            sessions: usize,
            formats: u8,
            memory: *mut u16,
            memory_length: usize,
            out: *mut u64,
        );
        pub fn timed_publish(
            first: u16,
            last: u16,
            turns: usize,
            memory: *const u16,
            memory_length: usize,
            frame: *mut u16,
            frame_length: usize,
        ) -> u64;
        pub fn timed_view(
            number: u8,
            level: u32,
            scale: u32,
            inverted: u8,
            turns: usize,
            memory: *const u16,
            memory_length: usize,
            buffer: *mut u16,
            buffer_length: usize,
        ) -> u64;
        pub fn timed_replay(
            log: *const u8,
            log_length: usize,
            turns: usize,
            out: *mut u8,
            out_length: usize,
        ) -> usize;
    }
}

/// Runs `sessions` sessions with Q-5's mode on or off; answers refusals, the four counts, and the entries of trace and warnings.
pub fn transfers(
    table: &[u64],
    bytes: &[u8],
    first: usize,
    turns: usize,
    sessions: usize,
    formats: bool,
    memory: &mut [u16],
) -> [u64; 7] {
    let mut out = [0u64; 8];
    unsafe {
        foreign::timed_transfers(
            table.as_ptr(),
            table.len(),
            bytes.as_ptr(),
            bytes.len(),
            first,
            turns,
            sessions,
            u8::from(formats),
            memory.as_mut_ptr(),
            memory.len(),
            out.as_mut_ptr(),
        );
    }
    [out[0], out[1], out[2], out[3], out[4], out[5], out[6]]
}

/// The number of refusals.
pub fn publish(first: u16, last: u16, turns: usize, memory: &[u16], frame: &mut [u16]) -> u64 {
    unsafe {
        foreign::timed_publish(
            first,
            last,
            turns,
            memory.as_ptr(),
            memory.len(),
            frame.as_mut_ptr(),
            frame.len(),
        )
    }
}

/// The number of refusals.
pub fn view(
    number: u8,
    (level, scale): (u32, u32),
    inverted: bool,
    turns: usize,
    memory: &[u16],
    buffer: &mut [u16],
) -> u64 {
    unsafe {
        foreign::timed_view(
            number,
            level,
            scale,
            u8::from(inverted),
            turns,
            memory.as_ptr(),
            memory.len(),
            buffer.as_mut_ptr(),
            buffer.len(),
        )
    }
}

/// The report's length.
pub fn replay(log: &[u8], turns: usize, out: &mut [u8]) -> usize {
    unsafe { foreign::timed_replay(log.as_ptr(), log.len(), turns, out.as_mut_ptr(), out.len()) }
}
