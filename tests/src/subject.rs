//! The proved run, salvage, reading of OIL texts, draw, wait, misses and verdict, linked from the static libraries.

/// The static library's file.
pub const LIBRARY: &str = env!("OSEK_LIBRARY");

extern "C" {
    pub fn osek_run(
        config: *const u8,
        config_len: usize,
        trace: *const u8,
        trace_len: usize,
        out: *mut u8,
        out_len: usize,
    ) -> u64;
    pub fn osek_salvage(
        trace: *const u8,
        trace_len: usize,
        events: *mut u8,
        events_len: usize,
        stretches: *mut u8,
        stretches_len: usize,
    ) -> u64;
    pub fn osek_oil(text: *const u8, text_len: usize, config: *mut u8, config_len: usize, place: *mut u64) -> u64;
    pub fn osek_wait(config: *const u8, config_len: usize, trace: *const u8, trace_len: usize, body: u32) -> u64;
    pub fn osek_misses(
        config: *const u8,
        config_len: usize,
        trace: *const u8,
        trace_len: usize,
        list: *mut u8,
        list_len: usize,
    ) -> u64;
    pub fn osek_draw(
        start: u32,
        weights: *const u16,
        limits: *const u16,
        count: u32,
        out: *mut u8,
        out_len: usize,
    ) -> u64;
    pub fn osek_verdict(
        config: *const u8,
        config_len: usize,
        trace: *const u8,
        trace_len: usize,
        recorded: *const u8,
        recorded_len: usize,
    ) -> u64;
}

/// Safe: the pointers come from slices, so they are not null and the output overlaps no input.
#[inline(never)]
pub fn run(config: &[u8], trace: &[u8], out: &mut [u8]) -> u64 {
    unsafe { osek_run(config.as_ptr(), config.len(), trace.as_ptr(), trace.len(), out.as_mut_ptr(), out.len()) }
}

/// Safe for the same reasons.
#[inline(never)]
pub fn salvage(trace: &[u8], events: &mut [u8], stretches: &mut [u8]) -> u64 {
    unsafe {
        osek_salvage(
            trace.as_ptr(),
            trace.len(),
            events.as_mut_ptr(),
            events.len(),
            stretches.as_mut_ptr(),
            stretches.len(),
        )
    }
}

/// Safe for the same reasons.
#[inline(never)]
pub fn oil(text: &[u8], config: &mut [u8], place: &mut [u64; 2]) -> u64 {
    unsafe { osek_oil(text.as_ptr(), text.len(), config.as_mut_ptr(), config.len(), place.as_mut_ptr()) }
}

/// Safe for the same reasons.
#[inline(never)]
pub fn wait(config: &[u8], trace: &[u8], body: u32) -> u64 {
    unsafe { osek_wait(config.as_ptr(), config.len(), trace.as_ptr(), trace.len(), body) }
}

/// Safe for the same reasons.
#[inline(never)]
pub fn misses(config: &[u8], trace: &[u8], list: &mut [u8]) -> u64 {
    unsafe { osek_misses(config.as_ptr(), config.len(), trace.as_ptr(), trace.len(), list.as_mut_ptr(), list.len()) }
}

/// Safe for the same reasons.
#[inline(never)]
pub fn draw(start: u32, weights: &[u16; 12], limits: &[u16; 4], count: u32, out: &mut [u8]) -> u64 {
    unsafe { osek_draw(start, weights.as_ptr(), limits.as_ptr(), count, out.as_mut_ptr(), out.len()) }
}

/// Safe for the same reasons; nothing is written.
#[inline(never)]
pub fn verdict(config: &[u8], trace: &[u8], recorded: &[u8]) -> u64 {
    unsafe {
        osek_verdict(config.as_ptr(), config.len(), trace.as_ptr(), trace.len(), recorded.as_ptr(), recorded.len())
    }
}
