//! In which epochs a schedule encrypts, and what the original is run with to do the same: its
//! TickTock has one epoch more on than the engine's (request g).

use original::driver::Numbers;

pub const NEVER: u64 = 1;
pub const EVERY_NTH_EPOCH: u64 = 2;
pub const TICK_TOCK: u64 = 3;

/// A schedule's kind and its two numbers.
pub type Schedule = [u64; 3];

/// As create is given it, with 0 for numbers that the kind doesn't use.
pub fn given(x: &Numbers) -> Schedule {
    match x.schedule {
        TICK_TOCK => [TICK_TOCK, x.number_a, x.number_b],
        EVERY_NTH_EPOCH => [EVERY_NTH_EPOCH, x.number_a, 0],
        kind => [kind, 0, 0],
    }
}

/// What the original is run with.
pub fn as_original(schedule: Schedule) -> Schedule {
    match schedule {
        [TICK_TOCK, 0, _] => [NEVER, 0, 0],
        [TICK_TOCK, on, off] => [TICK_TOCK, on - 1, off + 1],
        other => other,
    }
}

/// Create's numbers as the original gets them.
pub fn original_numbers(x: &Numbers) -> Numbers {
    let [schedule, number_a, number_b] = as_original(given(x));
    Numbers { schedule, number_a, number_b, ..*x }
}

/// Whether the epoch is encrypted, as documents 01 and 02 have it.
pub fn is_encrypted([kind, a, b]: Schedule, epoch: u64) -> bool {
    match kind {
        0 => true,
        NEVER => false,
        EVERY_NTH_EPOCH => epoch % a == 0,
        _ => epoch % (a + b) < a,
    }
}
