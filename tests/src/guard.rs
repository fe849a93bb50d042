//! Memory with unreadable pages on both sides: a byte read or written outside a slice ends the process.
//!
//! A slice is placed flush against the page before it or the page after it. The rest of its pages bears a pattern
//! that is looked at afterwards, and input pages can't be written while the run works.

use std::cell::Cell;
use std::ffi::{c_int, c_long, c_void};

use crate::cases::Case;
use crate::draw::Request;
use crate::oil::Source;
use crate::salvage::Recording;
use crate::verdict::Unit;

extern "C" {
    fn mmap(addr: *mut c_void, length: usize, prot: c_int, flags: c_int, fd: c_int, offset: i64) -> *mut c_void;
    fn mprotect(addr: *mut c_void, length: usize, prot: c_int) -> c_int;
    fn munmap(addr: *mut c_void, length: usize) -> c_int;
    fn sysconf(name: c_int) -> c_long;
    fn signal(number: c_int, handler: usize) -> usize;
    fn write(fd: c_int, bytes: *const c_void, length: usize) -> isize;
    fn _exit(status: c_int) -> !;
}

// Linux.
const PROT_NONE: c_int = 0;
const PROT_READ: c_int = 1;
const PROT_WRITE: c_int = 2;
const MAP_PRIVATE: c_int = 2;
const MAP_ANONYMOUS: c_int = 0x20;
const SC_PAGESIZE: c_int = 30;
const SIGSEGV: c_int = 11;
const SIGBUS: c_int = 7;

/// The run as C declares it, with slices for pointers and lengths.
pub type Run = fn(&[u8], &[u8], &mut [u8]) -> u64;

/// The salvage, in the same way.
pub type Salvage = fn(&[u8], &mut [u8], &mut [u8]) -> u64;

/// The reading of an OIL text, in the same way.
pub type Oil = fn(&[u8], &mut [u8], &mut [u64; 2]) -> u64;

/// The question how long a body waits to begin, in the same way.
pub type Wait = fn(&[u8], &[u8], u32) -> u64;

/// The draw, in the same way.
pub type Draw = fn(u32, &[u16; 12], &[u16; 4], u32, &mut [u8]) -> u64;

/// The verdict, in the same way.
pub type Verdict = fn(&[u8], &[u8], &[u8]) -> u64;

/// The page against which slices are flush.
#[derive(Clone, Copy, PartialEq, Eq, Debug)]
pub enum Side {
    Before,
    After,
}

/// Pages between two unreadable ones.
struct Pages {
    start: *mut u8,
    length: usize,
    page: usize,
}

const PATTERN: u8 = 0xa5;

impl Pages {
    fn new(least: usize) -> Self {
        let page = unsafe { sysconf(SC_PAGESIZE) } as usize;
        let length = least.div_ceil(page).max(1) * page;
        unsafe {
            let all = mmap(std::ptr::null_mut(), length + 2 * page, PROT_NONE, MAP_PRIVATE | MAP_ANONYMOUS, -1, 0);
            assert!(all as isize != -1, "mmap failed");
            let pages = Pages { start: all.cast::<u8>().add(page), length, page };
            pages.protect(PROT_READ | PROT_WRITE);
            pages
        }
    }

    fn protect(&self, prot: c_int) {
        let status = unsafe { mprotect(self.start.cast(), self.length, prot) };
        assert_eq!(status, 0, "mprotect failed");
    }

    fn all(&mut self) -> &mut [u8] {
        unsafe { std::slice::from_raw_parts_mut(self.start, self.length) }
    }

    fn range(&self, length: usize, side: Side) -> std::ops::Range<usize> {
        assert!(length <= self.length, "the case is larger than its pages");
        match side {
            Side::Before => 0..length,
            Side::After => self.length - length..self.length,
        }
    }

    /// Writes the pattern everywhere and `bytes` flush against `side`.
    fn place(&mut self, bytes: &[u8], side: Side) {
        let range = self.range(bytes.len(), side);
        let all = self.all();
        all.fill(PATTERN);
        all[range].copy_from_slice(bytes);
    }

    /// The slice of that length which is flush against `side`.
    ///
    /// # Safety
    /// No two slices of the same pages may be in use at once.
    unsafe fn lent<'a>(&self, length: usize, side: Side) -> &'a mut [u8] {
        let range = self.range(length, side);
        std::slice::from_raw_parts_mut(self.start.add(range.start), range.len())
    }

    /// The bytes outside the slice are as `place` left them.
    fn surroundings_untouched(&mut self, length: usize, side: Side) -> bool {
        let range = self.range(length, side);
        let all = self.all();
        all[..range.start].iter().chain(&all[range.end..]).all(|byte| *byte == PATTERN)
    }
}

impl Drop for Pages {
    fn drop(&mut self) {
        unsafe { munmap(self.start.sub(self.page).cast(), self.length + 2 * self.page) };
    }
}

/// Guarded pages for the two inputs and the output of a run.
pub struct GuardedRun {
    config: Pages,
    trace: Pages,
    out: Pages,
}

impl Default for GuardedRun {
    fn default() -> Self {
        GuardedRun { config: Pages::new(8_192), trace: Pages::new(16_384), out: Pages::new(65_536) }
    }
}

impl GuardedRun {
    /// The result of the run and the whole output buffer after it. Ends the test if anything outside was touched.
    pub fn run(&mut self, run: Run, case: &Case, side: Side) -> (u64, Vec<u8>) {
        self.config.place(&case.config, side);
        self.trace.place(&case.trace, side);
        self.out.place(&case.prefilled(), side);
        self.config.protect(PROT_READ);
        self.trace.protect(PROT_READ);
        let (config, trace, out) = (
            self.config.range(case.config.len(), side),
            self.trace.range(case.trace.len(), side),
            self.out.range(case.out_len, side),
        );
        let result = unsafe {
            run(
                std::slice::from_raw_parts(self.config.start.add(config.start), config.len()),
                std::slice::from_raw_parts(self.trace.start.add(trace.start), trace.len()),
                std::slice::from_raw_parts_mut(self.out.start.add(out.start), out.len()),
            )
        };
        self.config.protect(PROT_READ | PROT_WRITE);
        self.trace.protect(PROT_READ | PROT_WRITE);
        let (seed, number) = CURRENT.get();
        assert!(
            self.out.surroundings_untouched(case.out_len, side),
            "the run wrote outside its output of {} bytes: seed {seed} case {number}",
            case.out_len
        );
        (result, self.out.all()[out].to_vec())
    }
}

/// Guarded pages for the input and both outputs of a salvage.
pub struct GuardedSalvage {
    trace: Pages,
    events: Pages,
    stretches: Pages,
}

impl Default for GuardedSalvage {
    fn default() -> Self {
        GuardedSalvage { trace: Pages::new(16_384), events: Pages::new(16_384), stretches: Pages::new(65_536) }
    }
}

impl GuardedSalvage {
    /// The result and both whole outputs after it. Ends the test if anything outside was touched.
    pub fn run(&mut self, salvage: Salvage, recording: &Recording, side: Side) -> (u64, Vec<u8>, Vec<u8>) {
        let (events, stretches) = recording.prefilled();
        self.trace.place(&recording.trace, side);
        self.events.place(&events, side);
        self.stretches.place(&stretches, side);
        self.trace.protect(PROT_READ);
        let (result, events, stretches) = unsafe {
            let events = self.events.lent(recording.events_len, side);
            let stretches = self.stretches.lent(recording.stretches_len, side);
            (
                salvage(self.trace.lent(recording.trace.len(), side), events, stretches),
                events.to_vec(),
                stretches.to_vec(),
            )
        };
        self.trace.protect(PROT_READ | PROT_WRITE);
        let (seed, number) = CURRENT.get();
        assert!(
            self.events.surroundings_untouched(events.len(), side)
                && self.stretches.surroundings_untouched(stretches.len(), side),
            "the salvage wrote outside its outputs of {} and {} bytes: seed {seed} case {number}",
            events.len(),
            stretches.len()
        );
        (result, events, stretches)
    }
}

/// Guarded pages for the text, the configuration and the place of an OIL reading.
pub struct GuardedOil {
    text: Pages,
    config: Pages,
    place: Pages,
}

impl Default for GuardedOil {
    fn default() -> Self {
        GuardedOil { text: Pages::new(1 << 20), config: Pages::new(4_096), place: Pages::new(16) }
    }
}

impl GuardedOil {
    /// The result, the whole configuration buffer and the place. Ends the test if anything outside was touched.
    pub fn run(&mut self, oil: Oil, source: &Source, side: Side) -> (u64, Vec<u8>, [u64; 2]) {
        let before: Vec<u8> = source.place().iter().flat_map(|number| number.to_ne_bytes()).collect();
        self.text.place(&source.text, side);
        self.config.place(&source.prefilled(), side);
        self.place.place(&before, side);
        self.text.protect(PROT_READ);
        let (result, config, place) = unsafe {
            let config = self.config.lent(source.config_len, side);
            let place = &mut *self.place.lent(16, side).as_mut_ptr().cast::<[u64; 2]>();
            (oil(self.text.lent(source.text.len(), side), config, place), config.to_vec(), *place)
        };
        self.text.protect(PROT_READ | PROT_WRITE);
        let (seed, number) = CURRENT.get();
        assert!(
            self.config.surroundings_untouched(config.len(), side) && self.place.surroundings_untouched(16, side),
            "the reading wrote outside its output of {} bytes or its place: seed {seed} case {number}",
            config.len()
        );
        (result, config, place)
    }
}

/// Guarded pages for the two inputs of a wait, which writes to nothing.
pub struct GuardedWait {
    config: Pages,
    trace: Pages,
}

impl Default for GuardedWait {
    fn default() -> Self {
        GuardedWait { config: Pages::new(8_192), trace: Pages::new(16_384) }
    }
}

impl GuardedWait {
    /// The result. Ends the process if anything outside was touched, or an input written to.
    pub fn run(&mut self, wait: Wait, config: &[u8], trace: &[u8], body: u32, side: Side) -> u64 {
        self.config.place(config, side);
        self.trace.place(trace, side);
        self.config.protect(PROT_READ);
        self.trace.protect(PROT_READ);
        let result = unsafe { wait(self.config.lent(config.len(), side), self.trace.lent(trace.len(), side), body) };
        self.config.protect(PROT_READ | PROT_WRITE);
        self.trace.protect(PROT_READ | PROT_WRITE);
        result
    }
}

/// Guarded pages for the weights, the limits and the output of a draw.
pub struct GuardedDraw {
    weights: Pages,
    limits: Pages,
    out: Pages,
}

impl Default for GuardedDraw {
    fn default() -> Self {
        GuardedDraw { weights: Pages::new(24), limits: Pages::new(8), out: Pages::new(16_384) }
    }
}

impl GuardedDraw {
    /// The result and the whole output buffer after it. Ends the test if anything outside was touched.
    pub fn run(&mut self, draw: Draw, request: &Request, side: Side) -> (u64, Vec<u8>) {
        let bytes = |numbers: &[u16]| numbers.iter().flat_map(|number| number.to_ne_bytes()).collect::<Vec<u8>>();
        self.weights.place(&bytes(&request.weights), side);
        self.limits.place(&bytes(&request.limits), side);
        self.out.place(&request.prefilled(), side);
        self.weights.protect(PROT_READ);
        self.limits.protect(PROT_READ);
        let (result, out) = unsafe {
            let weights = &*self.weights.lent(24, side).as_ptr().cast::<[u16; 12]>();
            let limits = &*self.limits.lent(8, side).as_ptr().cast::<[u16; 4]>();
            let out = self.out.lent(request.out_len, side);
            (draw(request.start, weights, limits, request.count, out), out.to_vec())
        };
        self.weights.protect(PROT_READ | PROT_WRITE);
        self.limits.protect(PROT_READ | PROT_WRITE);
        let (seed, number) = CURRENT.get();
        assert!(
            self.out.surroundings_untouched(out.len(), side),
            "the draw wrote outside its output of {} bytes: seed {seed} case {number}",
            out.len()
        );
        (result, out)
    }
}

/// Guarded pages for the three inputs of a verdict, which writes nothing.
pub struct GuardedVerdict {
    config: Pages,
    trace: Pages,
    recorded: Pages,
}

impl Default for GuardedVerdict {
    fn default() -> Self {
        GuardedVerdict { config: Pages::new(8_192), trace: Pages::new(16_384), recorded: Pages::new(65_536) }
    }
}

impl GuardedVerdict {
    /// The result. No input can be written meanwhile.
    pub fn run(&mut self, verdict: Verdict, unit: &Unit, side: Side) -> u64 {
        let inputs =
            [(&mut self.config, &unit.config), (&mut self.trace, &unit.trace), (&mut self.recorded, &unit.recorded)];
        let [config, trace, recorded] = inputs.map(|(pages, bytes)| {
            pages.place(bytes, side);
            pages.protect(PROT_READ);
            unsafe { &*pages.lent(bytes.len(), side) }
        });
        let result = verdict(config, trace, recorded);
        for pages in [&self.config, &self.trace, &self.recorded] {
            pages.protect(PROT_READ | PROT_WRITE);
        }
        result
    }
}

thread_local! {
    static CURRENT: Cell<(u64, u64)> = const { Cell::new((0, 0)) };
}

/// Names the case that this thread runs, for the message of a memory fault.
pub fn announce(seed: u64, number: u64) {
    CURRENT.set((seed, number));
}

/// From now on a memory fault names seed and case before it ends the process.
pub fn report_faults() {
    unsafe {
        signal(SIGSEGV, on_fault as *const () as usize);
        signal(SIGBUS, on_fault as *const () as usize);
    }
}

extern "C" fn on_fault(_: c_int) {
    let (seed, number) = CURRENT.get();
    let mut line = Line::default();
    line.text(b"\nmemory touched outside the slices: seed ");
    line.number(seed);
    line.text(b" case ");
    line.number(number);
    line.text(b"\n");
    unsafe {
        write(2, line.bytes.as_ptr().cast(), line.length);
        _exit(101)
    }
}

/// A line put together without allocating, for the signal handler.
struct Line {
    bytes: [u8; 128],
    length: usize,
}

impl Default for Line {
    fn default() -> Self {
        Line { bytes: [0; 128], length: 0 }
    }
}

impl Line {
    fn text(&mut self, text: &[u8]) {
        for byte in text {
            self.bytes[self.length] = *byte;
            self.length += 1;
        }
    }

    fn number(&mut self, value: u64) {
        if value >= 10 {
            self.number(value / 10);
        }
        self.text(&[b'0' + (value % 10) as u8]);
    }
}
