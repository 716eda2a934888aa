//! The stack that one call uses. A thread runs on memory that is filled with a pattern; after the
//! call, the lowest byte that differs shows how deep the call went. The same is done for a call
//! that does nothing, since starting a thread uses stack too: the figure is exact where it is the
//! larger one.

use crate::calls::Version;
use crate::scene::{Out, Scene};
use brawnesk_tests::ffi::Answer;
use std::alloc::{alloc, dealloc, Layout};
use std::ffi::c_void;
use std::hint::black_box;
use std::ptr::{addr_of, null_mut};

const SIZE: usize = 1 << 20;
const PATTERN: u8 = 0xa5;

/// `pthread_attr_t`, which has 56 bytes on 64-bit Linux.
#[repr(C, align(16))]
struct Attributes([u64; 8]);

extern "C" {
    fn pthread_attr_init(attributes: *mut Attributes) -> i32;
    fn pthread_attr_setstack(attributes: *mut Attributes, low: *mut c_void, size: usize) -> i32;
    fn pthread_create(
        thread: *mut usize,
        attributes: *const Attributes,
        start: extern "C" fn(*mut c_void) -> *mut c_void,
        argument: *mut c_void,
    ) -> i32;
    fn pthread_join(thread: usize, result: *mut *mut c_void) -> i32;
}

struct Job<'a> {
    version: Version,
    scene: &'a Scene,
    out: &'a mut Out,
    low: *const u8,
    used: usize,
}

/// Calls, and then looks for the lowest changed byte from inside the thread, before its end can use
/// more stack.
extern "C" fn run(job: *mut c_void) -> *mut c_void {
    // SAFETY: `depth` lends the job until the thread has ended.
    let job = unsafe { &mut *job.cast::<Job>() };
    let here = addr_of!(job) as usize;
    black_box(job.version)(black_box(job.scene), job.out);
    let mut at = job.low;
    // SAFETY: the walk stays in the thread's stack, since this frame itself differs from the pattern.
    while unsafe { at.read_volatile() } == PATTERN {
        at = at.wrapping_add(1);
    }
    job.used = here.saturating_sub(at as usize);
    null_mut()
}

fn depth(version: Version, scene: &Scene) -> usize {
    let mut out = Out::new(scene);
    let layout = Layout::from_size_align(SIZE, 4096).expect("a power of two");
    // SAFETY: the memory is filled before it is read, and freed after the thread has ended.
    unsafe {
        let low = alloc(layout);
        assert!(!low.is_null());
        low.write_bytes(PATTERN, SIZE);
        let mut job = Job {
            version,
            scene,
            out: &mut out,
            low,
            used: 0,
        };
        let mut attributes = Attributes([0; 8]);
        let mut thread = 0;
        assert_eq!(pthread_attr_init(&mut attributes), 0);
        let stack = low.cast();
        assert_eq!(pthread_attr_setstack(&mut attributes, stack, SIZE), 0);
        let argument = (&raw mut job).cast();
        assert_eq!(pthread_create(&mut thread, &attributes, run, argument), 0);
        assert_eq!(pthread_join(thread, null_mut()), 0);
        dealloc(low, layout);
        job.used
    }
}

pub fn used(version: Version, scene: &Scene) -> String {
    let nothing = depth(|_, _| Answer::Done(0), scene);
    let used = depth(version, scene);
    if used > nothing {
        used.to_string()
    } else {
        format!("<={nothing}")
    }
}
