//! One call a line in, one line out.

use std::io::{self, BufRead, Write};

use original::driver::{Instance, Numbers};

use crate::oracle::{Call, Oracle, Trouble};
use crate::raw;

pub fn numbers(x: &[u64]) -> Numbers {
    Numbers {
        n: x[0],
        f: x[1],
        look_ahead: x[2],
        own: x[3],
        key: x[4],
        strategy: x[5],
        start: x[6],
        schedule: x[7],
        number_a: x[8],
        number_b: x[9],
    }
}

pub fn join(words: &[u64]) -> String {
    words.iter().map(u64::to_string).collect::<Vec<_>>().join(" ")
}

/// What was created: with 01's checks, and raw.
#[derive(Default)]
struct Session {
    oracle: Option<Oracle>,
    raw: Option<Instance>,
}

pub fn run() -> io::Result<()> {
    let mut session = Session::default();
    let stdout = io::stdout();
    for line in io::stdin().lock().lines() {
        writeln!(stdout.lock(), "{}", out(&mut session, &line?))?;
    }
    Ok(())
}

/// Makes the calls of a text and compares each with the lines after it that begin with `=`. Lines
/// that are empty or begin with `#` are comments. Answers how many lines were compared.
pub fn check(text: &str) -> Result<usize, String> {
    let mut session = Session::default();
    let mut last = String::new();
    let mut compared = 0;
    for (i, line) in text.lines().enumerate() {
        if line.is_empty() || line.starts_with('#') {
            continue;
        }
        match line.strip_prefix("= ") {
            Some(expected) if last == expected => compared += 1,
            Some(_) => return Err(format!("line {}: the oracle says {}", i + 1, last)),
            None => last = out(&mut session, line),
        }
    }
    Ok(compared)
}

fn out(session: &mut Session, line: &str) -> String {
    answer(session, line).unwrap_or_else(|trouble| format!("error {}", trouble))
}

/// The numbers of a line. After a colon stand answers as kind,a,b: they become a table without
/// gaps.
fn parse(text: &str) -> Option<Vec<u64>> {
    let (text, answers) = match text.split_once(':') {
        Some((text, answers)) => (text, Some(answers)),
        None => (text, None),
    };
    let mut numbers = Vec::new();
    for word in text.split_whitespace() {
        numbers.push(word.parse().ok()?);
    }
    if let Some(answers) = answers {
        let answers: Vec<&str> = answers.split_whitespace().collect();
        let next = |i: usize| if i < answers.len() { i as u64 + 1 } else { 0 };
        numbers.extend_from_slice(&[next(0), 0, 0, 0]);
        for (i, answer) in answers.iter().enumerate() {
            numbers.push(next(i + 1));
            let before = numbers.len();
            for word in answer.split(',') {
                numbers.push(word.parse().ok()?);
            }
            if numbers.len() != before + 3 {
                return None;
            }
        }
    }
    Some(numbers)
}

fn answer(session: &mut Session, line: &str) -> Result<String, Trouble> {
    let (op, rest) = line.split_once(' ').unwrap_or((line, ""));
    let x = parse(rest).ok_or("a word is not a number of 64 bits")?;
    if let Some(op) = op.strip_prefix("raw_") {
        return raw::answer(&mut session.raw, op, &x);
    }
    if op == "create" {
        if x.len() != 10 {
            return Err("create takes ten numbers".into());
        }
        return Ok(match Oracle::create(&numbers(&x))? {
            Ok(created) => {
                session.oracle = Some(created);
                "0".into()
            }
            Err(reply) => reply.to_string(),
        });
    }
    let oracle = session.oracle.as_mut().ok_or("nothing was created")?;
    let mut call = |call: Call, rest: &[u64]| {
        let records = *rest.first().ok_or("the step table's records are missing")?;
        let reply = oracle.call(&call, records, &rest[1..])?;
        let words = [vec![reply.reply], reply.step].concat();
        Ok(join(&words))
    };
    match (op, x.len()) {
        ("propose", _) => call(Call::Propose, &x),
        ("message", 6..) => call(Call::Message([x[0], x[1], x[2], x[3], x[4]]), &x[5..]),
        ("skip", 1) => Ok(oracle.skip(x[0])?.to_string()),
        ("current_epoch", 0) => Ok(join(&[0, oracle.queries()[0]])),
        ("has_input", 0) => Ok(join(&[0, oracle.queries()[1]])),
        ("received_proposals", 0) => Ok(join(&[0, oracle.queries()[2]])),
        ("fault_count", 0) => Ok(join(&[0, oracle.queries()[3]])),
        ("state_length", 0) => Ok(join(&[0, oracle.state()?.len() as u64])),
        ("state", 0) => Ok(format!("0 {}", join(&oracle.state()?))),
        ("debug", 0) => Ok(oracle.debug()),
        _ => Err("not a call".into()),
    }
}
