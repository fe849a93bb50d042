//! How much stack a run uses: it runs on a thread whose stack was filled with a pattern, and what it overwrote is
//! counted.

use std::ffi::{c_int, c_void};

use crate::cases::Case;
use crate::guard::Run;

/// glibc's pthread_attr_t on 64-bit Linux, with room to spare.
#[repr(C, align(16))]
struct Attributes([u8; 128]);

extern "C" {
    fn pthread_attr_init(attributes: *mut Attributes) -> c_int;
    fn pthread_attr_setstack(attributes: *mut Attributes, stack: *mut c_void, size: usize) -> c_int;
    fn pthread_attr_destroy(attributes: *mut Attributes) -> c_int;
    fn pthread_create(
        thread: *mut usize,
        attributes: *const Attributes,
        start: extern "C" fn(*mut c_void) -> *mut c_void,
        argument: *mut c_void,
    ) -> c_int;
    fn pthread_join(thread: usize, value: *mut *mut c_void) -> c_int;
}

const SIZE: usize = 1 << 20;
const PAGE: usize = 4096;
const PATTERN: u8 = 0x5a;

/// Below the thread's own frame, left alone when the pattern is written: calls on the way there use it.
const MARGIN: usize = 512;

struct Work<'a> {
    run: Run,
    cases: &'a [Case],
    out: Vec<u8>,
    lowest: *mut u8,
    used: usize,
}

extern "C" fn work(argument: *mut c_void) -> *mut c_void {
    let work = unsafe { &mut *argument.cast::<Work>() };
    let here = (&raw const argument).addr();
    let below = here - work.lowest.addr();
    // The stack grows down to `lowest`, and nothing below this frame is in use yet.
    for at in 0..below - MARGIN {
        unsafe { work.lowest.add(at).write_volatile(PATTERN) };
    }
    for case in work.cases {
        (work.run)(&case.config, &case.trace, &mut work.out[..case.out_len]);
    }
    let untouched = (0..below).take_while(|at| unsafe { work.lowest.add(*at).read_volatile() } == PATTERN).count();
    work.used = below - untouched;
    std::ptr::null_mut()
}

/// The most stack, in bytes, that the run uses on any of the cases. A use below half a KiB is not told apart.
pub fn used(run: Run, cases: &[Case]) -> usize {
    let longest = cases.iter().map(|case| case.out_len).max().unwrap_or(0);
    // A stack is whole pages.
    let mut memory = vec![0u8; SIZE + PAGE];
    let lowest = unsafe { memory.as_mut_ptr().add(memory.as_ptr().align_offset(PAGE)) };
    let mut work_to_do = Work { run, cases, out: vec![0; longest], lowest, used: 0 };
    unsafe {
        let mut attributes = Attributes([0; 128]);
        assert_eq!(pthread_attr_init(&mut attributes), 0);
        assert_eq!(pthread_attr_setstack(&mut attributes, lowest.cast(), SIZE), 0);
        let mut thread = 0;
        assert_eq!(pthread_create(&mut thread, &attributes, work, (&raw mut work_to_do).cast()), 0);
        assert_eq!(pthread_join(thread, std::ptr::null_mut()), 0);
        pthread_attr_destroy(&mut attributes);
    }
    work_to_do.used
}
