//! The outside answers of one call. Every stand-in takes what it does from here.
//!
//! The answers are either given (a table that was read) or chosen one by one as they are wanted
//! (when runs are generated); what was chosen can be taken out afterwards.

use std::cell::RefCell;

/// One answer or part: a record of document 01 without its `next`.
#[derive(Clone, Copy, Debug, PartialEq, Eq)]
pub struct Answer {
    pub kind: u64,
    pub a: u64,
    pub b: u64,
}

/// What a stand-in asks: the kind, whom `b` must name, and the handle that it is about (0: none).
/// The handle is only for the one who chooses; it is never compared.
#[derive(Clone, Copy, Debug)]
pub struct Question {
    pub kind: u64,
    pub name: Option<u64>,
    pub about: u64,
}

/// The payload of the panic that ends a call whose wanted answer is not next (reply 8).
pub struct Refused;

/// Answers a question with an answer and its parts.
pub type Choose = Box<dyn FnMut(Question) -> Vec<Answer>>;

#[derive(Default)]
struct Tape {
    answers: Vec<Answer>,
    place: usize,
    choose: Option<Choose>,
}

thread_local!(static TAPE: RefCell<Tape> = RefCell::default());

/// Sets the answers for the next call.
pub fn give(answers: Vec<Answer>) {
    TAPE.with(|t| *t.borrow_mut() = Tape { answers, place: 0, choose: None });
}

/// Has the next call's answers chosen.
pub fn choose(choose: Choose) {
    TAPE.with(|t| *t.borrow_mut() = Tape { answers: Vec::new(), place: 0, choose: Some(choose) });
}

/// Takes out the answers, and how many of them were read.
pub fn take() -> (Vec<Answer>, usize) {
    TAPE.with(|t| {
        let tape = std::mem::take(&mut *t.borrow_mut());
        (tape.answers, tape.place)
    })
}

/// The next answer, which must be of this kind and name.
pub fn wanted(kind: u64, name: Option<u64>, about: u64) -> Answer {
    let found = TAPE.with(|t| {
        let mut tape = t.borrow_mut();
        if let Some(mut choose) = tape.choose.take() {
            tape.answers.extend(choose(Question { kind, name, about }));
            tape.choose = Some(choose);
        }
        let next = tape.answers.get(tape.place).copied();
        let fits = |x: &Answer| x.kind == kind && name.map_or(true, |name| x.b == name);
        let found = next.filter(fits);
        if found.is_some() {
            tape.place += 1;
        }
        found
    });
    found.unwrap_or_else(|| std::panic::panic_any(Refused))
}

/// The parts that follow.
pub fn parts() -> Vec<Answer> {
    TAPE.with(|t| {
        let mut tape = t.borrow_mut();
        let rest = tape.answers[tape.place..].iter();
        let parts: Vec<_> = rest.take_while(|x| x.kind >= 16).copied().collect();
        tape.place += parts.len();
        parts
    })
}
