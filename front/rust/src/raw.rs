//! The exports of the archive, and the numbers by which they speak.

use std::ffi::c_void;
use std::mem::{offset_of, size_of};

/// How many tasks a Domain has.
pub const TASKS: usize = 256;
/// How many completions it has.
pub const COMPLETIONS: u8 = 64;
/// How many words of bits it has, ...
pub const WORDS: u8 = 128;
/// ... how many bits a word has, ...
pub const BITS: u8 = 64;
/// ... and how many pages there are.
pub const PAGES: u8 = 128;

/// How many queues there are, each with a lock.
pub const HEADS: u32 = 384;

/// How many places there are for tasks that one call has roused.
pub const ROUSED: usize = 768;

/// The call is over.
pub const DONE: i32 = 0;
/// Advance at once.
pub const AGAIN: i32 = 1;
/// It waits for the lock of a queue: advance once its ticket is served.
pub const LOCKED: i32 = 2;
/// The task was put asleep: advance once it was roused.
pub const PARK: i32 = 3;

/// The kinds of calls.
#[derive(Clone, Copy, Debug, PartialEq, Eq)]
#[repr(u32)]
pub enum Kind {
    Advance = 0,
    WaitEvent = 1,
    SwaitEvent = 2,
    WaitVarEvent = 3,
    WaitOnBit = 4,
    WaitOnBitLock = 5,
    LockPage = 6,
    WaitForCompletion = 7,
    WakeUp = 10,
    SetAndWake = 11,
    PublishVarAndWake = 12,
    ClearAndWakeUpBit = 13,
    UnlockPage = 14,
    SwakeUpOne = 15,
    SwakeUpAll = 16,
    SetAndSwake = 17,
    Complete = 18,
    CompleteAll = 19,
    ReinitCompletion = 20,
    TryWaitForCompletion = 21,
    CompletionDone = 22,
    TrylockBit = 30,
    TrylockPage = 31,
    AddTally = 32,
    TakeCondition = 33,
    Number = 34,
    RaiseSignal = 35,
    TakeSignal = 36,
    WakeUpProcess = 37,
    Leave = 38,
}

/// A call: its kind and its numbers.
#[derive(Clone, Copy, Debug)]
#[repr(C)]
pub struct Call {
    pub kind: Kind,
    pub a: u32,
    pub b: u32,
    pub c: u32,
    pub value: u64,
}

impl Call {
    /// A call of a kind, all of whose numbers are 0.
    pub fn new(kind: Kind) -> Call {
        Call {
            kind,
            a: 0,
            b: 0,
            c: 0,
            value: 0,
        }
    }

    /// With its first number.
    pub fn at(self, a: u8) -> Call {
        Call { a: a.into(), ..self }
    }

    /// With its second number.
    pub fn and(self, b: u32) -> Call {
        Call { b, ..self }
    }

    /// With its third number.
    pub fn with(self, c: u32) -> Call {
        Call { c, ..self }
    }

    /// With its value.
    pub fn value(self, value: u64) -> Call {
        Call { value, ..self }
    }

    /// Another call of the same first and second number.
    pub fn of(self, kind: Kind) -> Call {
        Call {
            kind,
            a: self.a,
            b: self.b,
            c: 0,
            value: 0,
        }
    }
}

/// What a call told.
#[repr(C)]
pub struct Told {
    pub value: u64,
    pub ticket: u64,
    _served: u64,
    pub woken: u32,
    pub selected: u32,
    pub holds: u32,
    pub end: u32,
    pub head: u32,
    pub passed: u32,
    rouse_count: u32,
    rouse: [u8; ROUSED],
}

// The archive writes as many bytes: these are asserted in `sugwelan.h` too, which a test compares.
const _: () = assert!(size_of::<Call>() == 24 && offset_of!(Call, value) == 16);
const _: () = assert!(size_of::<Told>() == 824 && offset_of!(Told, rouse) == 52);

impl Told {
    /// Nothing.
    pub fn new() -> Told {
        Told {
            value: 0,
            ticket: 0,
            _served: 0,
            woken: 0,
            selected: 0,
            holds: 0,
            end: 0,
            head: HEADS,
            passed: HEADS,
            rouse_count: 0,
            rouse: [0; ROUSED],
        }
    }

    /// Forgets who was to be roused.
    pub fn clear(&mut self) {
        self.rouse_count = 0;
    }

    /// The tasks that are to be roused.
    pub fn roused(&self) -> &[u8] {
        &self.rouse[..self.rouse_count as usize]
    }
}

unsafe extern "C" {
    pub fn sugwelan_new(out: *mut *mut c_void) -> i32;
    pub fn sugwelan_fork(task: *mut c_void, share: u32, out: *mut *mut c_void) -> i32;
    pub fn sugwelan_call(task: *mut c_void, call: *const Call, told: *mut Told) -> i32;
    pub fn sugwelan_free(task: *mut c_void) -> i32;
}
