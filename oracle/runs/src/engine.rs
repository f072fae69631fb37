//! This project's engine, by its C interface.

use original::driver::Numbers;

use crate::oracle::Call;

extern "C" {
    fn hb_create(
        n: u64,
        f: u64,
        look_ahead: u64,
        own: u64,
        key: u64,
        strategy: u64,
        start_epoch: u64,
        schedule: u64,
        number_a: u64,
        number_b: u64,
        state: *mut u64,
        state_len: usize,
    ) -> u64;
    fn hb_propose(
        state: *mut u64,
        state_len: usize,
        scratch: *mut u64,
        scratch_len: usize,
        answers: *const u64,
        answers_len: usize,
        step: *mut u64,
        step_len: usize,
    ) -> u64;
    fn hb_message(
        sender: u64,
        epoch: u64,
        content: u64,
        proposer: u64,
        item: u64,
        state: *mut u64,
        state_len: usize,
        scratch: *mut u64,
        scratch_len: usize,
        answers: *const u64,
        answers_len: usize,
        step: *mut u64,
        step_len: usize,
    ) -> u64;
    fn hb_skip(target: u64, state: *mut u64, state_len: usize) -> u64;
    fn hb_current_epoch(state: *const u64, state_len: usize, result: *mut u64) -> u64;
    fn hb_has_input(state: *const u64, state_len: usize, result: *mut u64) -> u64;
    fn hb_received_proposals(state: *const u64, state_len: usize, result: *mut u64) -> u64;
    fn hb_fault_count(state: *const u64, state_len: usize, result: *mut u64) -> u64;
}

pub fn create(x: &Numbers, state: &mut [u64]) -> u64 {
    let (a, b) = (x.number_a, x.number_b);
    let (at, len) = (state.as_mut_ptr(), state.len());
    // Safe: the slice is lent with its length, as in the calls below.
    unsafe {
        let (own, start) = (x.own, x.start);
        hb_create(x.n, x.f, x.look_ahead, own, x.key, x.strategy, start, x.schedule, a, b, at, len)
    }
}

pub fn call(
    call: &Call,
    state: &mut [u64],
    scratch: &mut [u64],
    answers: &[u64],
    step: &mut [u64],
) -> u64 {
    let (s, s_len) = (state.as_mut_ptr(), state.len());
    let (w, w_len) = (scratch.as_mut_ptr(), scratch.len());
    let (a, a_len) = (answers.as_ptr(), answers.len());
    let (t, t_len) = (step.as_mut_ptr(), step.len());
    match *call {
        Call::Propose => unsafe { hb_propose(s, s_len, w, w_len, a, a_len, t, t_len) },
        Call::Message([sender, epoch, content, proposer, item]) => unsafe {
            hb_message(
                sender, epoch, content, proposer, item, s, s_len, w, w_len, a, a_len, t, t_len,
            )
        },
    }
}

pub fn skip(target: u64, state: &mut [u64]) -> u64 {
    unsafe { hb_skip(target, state.as_mut_ptr(), state.len()) }
}

/// Each query's reply; the results in the order of `Oracle::queries`.
pub fn queries(state: &[u64], results: &mut [u64; 4]) -> [u64; 4] {
    let (at, len) = (state.as_ptr(), state.len());
    let [current, input, received, faults] = results;
    unsafe {
        [
            hb_current_epoch(at, len, current),
            hb_has_input(at, len, input),
            hb_received_proposals(at, len, received),
            hb_fault_count(at, len, faults),
        ]
    }
}
