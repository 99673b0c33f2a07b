//! How deep a call goes: it runs in a thread on a stack of the test's own, painted beforehand, whose
//! bytes beyond a limit can be neither read nor written.

use std::ffi::{c_int, c_void};
use std::hint::black_box;
use std::ptr::{from_mut, null_mut};

const PAGE: usize = 4096;
const PAINT: u8 = 0xa5;

#[derive(Clone, Copy)]
#[repr(align(4096))]
struct Page([u8; PAGE]);

/// The stack's pages besides the limit: for the thread's own data above the caller's frame, and for
/// a guard below the limit that no frame steps over.
const SPARE: usize = 32;

/// A stack's upper end is moved by multiples of this. So it keeps its alignment, and the thread's own
/// data keep their place below it.
pub const STEP: usize = 64;

#[repr(align(64))]
struct Step([u8; STEP]);

/// Longer than the system's pthread_attr_t.
#[repr(C, align(16))]
struct Attributes([u8; 256]);

const PROT_NONE: c_int = 0;
const PROT_READ_WRITE: c_int = 3;

extern "C" {
    fn mprotect(lowest: *mut c_void, size: usize, protection: c_int) -> c_int;
    fn pthread_attr_init(attributes: *mut Attributes) -> c_int;
    fn pthread_attr_setstack(
        attributes: *mut Attributes,
        lowest: *mut c_void,
        size: usize,
    ) -> c_int;
    fn pthread_create(
        thread: *mut usize,
        attributes: *const Attributes,
        start: extern "C" fn(*mut c_void) -> *mut c_void,
        argument: *mut c_void,
    ) -> c_int;
    fn pthread_join(thread: usize, answer: *mut *mut c_void) -> c_int;
}

struct Job<'a> {
    run: &'a mut (dyn FnMut() + Send),
    lowest: *mut Page,
    limit: usize,
    /// Where the caller's frame ends.
    caller: usize,
}

extern "C" fn start(job: *mut c_void) -> *mut c_void {
    // Sound: `run_on` passes its job, and does not touch it before this thread has ended.
    let job = unsafe { &mut *job.cast::<Job>() };
    let here = black_box(Step([0; STEP]));
    job.caller = here.0.as_ptr() as usize;
    let beyond = (job.caller - job.limit - job.lowest as usize) / PAGE * PAGE;
    // Sound: these pages of the stack lie below this frame.
    let protect = |lowest: *mut Page, protection| unsafe {
        assert!(mprotect(lowest.cast(), beyond, protection) == 0)
    };
    protect(job.lowest, PROT_NONE);
    (job.run)();
    protect(job.lowest, PROT_READ_WRITE);
    null_mut()
}

/// Runs the job in a thread on a stack of so many bytes.
fn run_on(size: usize, job: &mut Job) {
    let mut attributes = Attributes([0; 256]);
    let mut thread = 0;
    // Sound: `depth` keeps the stack; the thread is joined here.
    unsafe {
        assert_eq!(pthread_attr_init(&mut attributes), 0);
        let set = pthread_attr_setstack(&mut attributes, job.lowest.cast(), size);
        assert_eq!(set, 0);
        let created = pthread_create(&mut thread, &attributes, start, from_mut(job).cast());
        assert_eq!(created, 0);
        assert_eq!(pthread_join(thread, null_mut()), 0);
    }
}

/// The bytes of stack below its caller's frame that the run writes to. It has exactly `limit` bytes,
/// a multiple of `STEP`: if it reads or writes beyond them, it is killed.
pub fn depth(limit: usize, run: &mut (dyn FnMut() + Send)) -> usize {
    let mut stack = vec![Page([PAINT; PAGE]); limit / PAGE + SPARE];
    let (lowest, size) = (stack.as_mut_ptr(), stack.len() * PAGE);
    let beyond = |job: &Job| job.caller - limit - lowest as usize;
    let mut job = Job {
        run: &mut || (),
        lowest,
        limit,
        caller: 0,
    };
    // Once for nothing, to learn where the caller's frame ends; then so far down that the limit is a
    // page's edge.
    run_on(size, &mut job);
    let down = beyond(&job) % PAGE;
    job.run = run;
    run_on(size - down, &mut job);
    assert_eq!(beyond(&job) % PAGE, 0);
    let bytes = stack.iter().flat_map(|page| &page.0);
    let untouched = bytes.take_while(|&&byte| byte == PAINT).count();
    job.caller - lowest as usize - untouched
}
