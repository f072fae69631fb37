//! Calls of the original without any of document 01's checks, to show where the two part.

use std::panic::{catch_unwind, AssertUnwindSafe};

use answers::Refused;
use original::driver::Instance;

use crate::command::numbers;
use crate::oracle::{table_to_answers, text, Trouble};

/// One raw call; its result is what the original's `Debug` shows.
pub fn answer(raw: &mut Option<Instance>, op: &str, x: &[u64]) -> Result<String, Trouble> {
    if op == "create" && x.len() == 10 {
        let created = catch_unwind(|| Instance::new(&numbers(x)));
        *raw = Some(created.map_err(|payload| text(&*payload))?);
        return Ok("Ok".into());
    }
    let instance = raw.as_mut().ok_or("nothing was created")?;
    let result = catch_unwind(AssertUnwindSafe(|| match (op, x.len()) {
        ("propose", _) => {
            answers::give(table_to_answers(x));
            Some(instance.raw_propose())
        }
        ("message", 5..) => {
            answers::give(table_to_answers(&x[5..]));
            Some(instance.raw_message(&[x[0], x[1], x[2], x[3], x[4]]))
        }
        ("skip", 1) => {
            instance.skip(x[0]);
            Some("Ok".into())
        }
        ("debug", 0) => Some(instance.debug()),
        _ => None,
    }));
    match result {
        Ok(shown) => shown.ok_or_else(|| "not a raw call".into()),
        Err(payload) if payload.is::<Refused>() => Err("another answer is wanted".into()),
        Err(payload) => Err(text(&*payload)),
    }
}
