//! What a checker of races is told, since what the archive orders is hidden from it: a call that changes something
//! orders what came before it before each call that sees that. Without `--cfg sugwelan_checks_races` nothing is told.

use crate::raw::Call;
#[cfg(sugwelan_checks_races)]
use crate::raw::Kind;

/// A tie for each thing of a Domain.
pub struct Ties {
    #[cfg(sugwelan_checks_races)]
    of: Vec<u64>,
}

/// The kinds that change something for others to see.
#[cfg(sugwelan_checks_races)]
const PUBLISH: [Kind; 8] = [
    Kind::SetAndWake,
    Kind::SetAndSwake,
    Kind::PublishVarAndWake,
    Kind::ClearAndWakeUpBit,
    Kind::UnlockPage,
    Kind::Complete,
    Kind::CompleteAll,
    Kind::RaiseSignal,
];

/// The kinds that try, and have seen what others changed where they have got it.
#[cfg(sugwelan_checks_races)]
const TRY: [Kind; 4] = [
    Kind::TrylockBit,
    Kind::TrylockPage,
    Kind::TryWaitForCompletion,
    Kind::CompletionDone,
];

#[cfg(sugwelan_checks_races)]
unsafe extern "C" {
    fn __tsan_acquire(at: *const u64);
    fn __tsan_release(at: *const u64);
}

#[cfg(sugwelan_checks_races)]
impl Ties {
    pub fn new() -> Ties {
        Ties { of: vec![0; 0x8000] }
    }

    /// The tie of the thing that a call is about: the number of the thing, and the number of its sort above it.
    fn at(&self, call: &Call) -> Option<&u64> {
        let place = match call.kind {
            Kind::WaitOnBit | Kind::WaitOnBitLock | Kind::ClearAndWakeUpBit | Kind::TrylockBit => call.a << 6 | call.b,
            Kind::LockPage | Kind::UnlockPage | Kind::TrylockPage => call.a << 6,
            Kind::WaitVarEvent | Kind::PublishVarAndWake => 0x4000 | call.a,
            Kind::RaiseSignal => 0x4100 | call.a,
            Kind::WaitForCompletion | Kind::Complete | Kind::CompleteAll => 0x4200 | call.a,
            Kind::TryWaitForCompletion | Kind::CompletionDone => 0x4200 | call.a,
            Kind::WaitEvent | Kind::SwaitEvent | Kind::SetAndWake | Kind::SetAndSwake => 0x4300 | call.a,
            Kind::TakeCondition => 0x4300 | call.a,
            _ => return None,
        };
        self.of.get(place as usize)
    }

    /// A call begins.
    pub fn begin(&self, call: &Call) {
        if let Some(tie) = self.at(call).filter(|_| PUBLISH.contains(&call.kind)) {
            // SAFETY: the checker notes the address alone.
            unsafe { __tsan_release(tie) };
        }
    }

    /// A call is over, with a value.
    pub fn end(&self, call: &Call, value: u64) {
        let sees = !PUBLISH.contains(&call.kind) && (value != 0 || !TRY.contains(&call.kind));
        if let Some(tie) = self.at(call).filter(|_| sees) {
            // SAFETY: as in `begin`.
            unsafe { __tsan_acquire(tie) };
        }
    }

    /// A task has seen its signals.
    pub fn signalled(&self, number: u8) {
        if let Some(tie) = self.at(&Call::new(Kind::RaiseSignal).at(number)) {
            // SAFETY: as in `begin`.
            unsafe { __tsan_acquire(tie) };
        }
    }
}

#[cfg(not(sugwelan_checks_races))]
impl Ties {
    pub fn new() -> Ties {
        Ties {}
    }

    /// A call begins.
    pub fn begin(&self, _call: &Call) {}

    /// A call is over, with a value.
    pub fn end(&self, _call: &Call, _value: u64) {}

    /// A task has seen its signals.
    pub fn signalled(&self, _number: u8) {}
}
