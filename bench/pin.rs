//! Loaded before a program (`LD_PRELOAD`): each thread that the program starts runs on the processor of the number PIN,
//! while the first one stays where it was started. So two threads of which the first one starts the other are placed
//! alike in any program.
use std::env;
use std::ffi::{c_char, c_int, c_void};
use std::mem::transmute;

const RTLD_NEXT: *mut c_void = usize::MAX as *mut c_void;

/// How many processors a set names, by words of 64.
const WORDS: usize = 16;

type Start = extern "C" fn(*mut c_void) -> *mut c_void;
type Create = unsafe extern "C" fn(*mut usize, *const c_void, Start, *mut c_void) -> c_int;

unsafe extern "C" {
    fn dlsym(handle: *mut c_void, name: *const c_char) -> *mut c_void;
    fn pthread_setaffinity_np(thread: usize, size: usize, set: *const u64) -> c_int;
}

/// Starts a thread as the C library does, and places it.
///
/// # Safety
/// As of the C library's function.
#[unsafe(no_mangle)]
pub unsafe extern "C" fn pthread_create(
    thread: *mut usize,
    attr: *const c_void,
    start: Start,
    arg: *mut c_void,
) -> c_int {
    let pin: usize = env::var("PIN").expect("PIN names a processor").parse().expect("it is a number");
    let mut set = [0u64; WORDS];
    set[pin / 64] = 1 << (pin % 64);
    // SAFETY: the next library's function of this name is the C library's, and the set is as large as is said.
    unsafe {
        let create: Create = transmute(dlsym(RTLD_NEXT, c"pthread_create".as_ptr()));
        let made = create(thread, attr, start, arg);
        if made == 0 {
            assert_eq!(pthread_setaffinity_np(*thread, 8 * WORDS, set.as_ptr()), 0, "no such processor");
        }
        made
    }
}
