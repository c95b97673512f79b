//! What the program `runscript` prints for a script, written from the customer's document alone: the script is split into
//! lines, a line into words.

use crate::refusal::SIZE;
use crate::{apply, words_for, Answer, Call, Interface, MOST_CELLS};
use std::path::PathBuf;

/// What a good line says.
enum Line {
    Fresh(u32),
    Run(Call),
}

/// "decimals below 2^32", leading zeros allowed.
fn number(word: &[u8]) -> Option<u32> {
    if word.is_empty() || !word.iter().all(u8::is_ascii_digit) {
        return None;
    }
    let digits = word.iter().position(|&digit| digit != b'0').map_or(&[][..], |first| &word[first..]);
    if digits.len() > 10 {
        return None;
    }
    u32::try_from(digits.iter().fold(0, |sum: u64, digit| 10 * sum + u64::from(digit - b'0'))).ok()
}

fn parse(line: &[u8]) -> Option<Line> {
    let mut words = line.split(|&byte| byte == b' ');
    let letter = words.next()?;
    let numbers: Vec<u32> = words.map(number).collect::<Option<_>>()?;
    let call = match (letter, numbers.as_slice()) {
        (b"f", &[n]) => return Some(Line::Fresh(n)),
        (b"n", &[r, a, b, v]) => Call::New { r, a, b, v },
        (b"p", &[r, v, x, y]) => Call::Point { r, v, x, y },
        (b"c", &[r, a]) => Call::Copy { r, a },
        (b"z", &[r]) => Call::Clear { r },
        (b"l", &[r, a]) => Call::Left { r, a },
        (b"r", &[r, a]) => Call::Right { r, a },
        (b"L", &[a, b]) => Call::SetLeft { a, b },
        (b"R", &[a, b]) => Call::SetRight { a, b },
        (b"v", &[a]) => Call::Value { a },
        (b"e", &[a]) => Call::East { a },
        (b"o", &[a]) => Call::North { a },
        (b"V", &[a, v]) => Call::SetValue { a, v },
        (b"s", &[a, b]) => Call::Same { a, b },
        (b"g", &[]) => Call::Collect,
        _ => return None,
    };
    Some(Line::Run(call))
}

/// The line of a call, without a line end.
pub fn line(call: Call) -> String {
    match call {
        Call::New { r, a, b, v } => format!("n {r} {a} {b} {v}"),
        Call::Point { r, v, x, y } => format!("p {r} {v} {x} {y}"),
        Call::Copy { r, a } => format!("c {r} {a}"),
        Call::Clear { r } => format!("z {r}"),
        Call::Left { r, a } => format!("l {r} {a}"),
        Call::Right { r, a } => format!("r {r} {a}"),
        Call::SetLeft { a, b } => format!("L {a} {b}"),
        Call::SetRight { a, b } => format!("R {a} {b}"),
        Call::Value { a } => format!("v {a}"),
        Call::East { a } => format!("e {a}"),
        Call::North { a } => format!("o {a}"),
        Call::SetValue { a, v } => format!("V {a} {v}"),
        Call::Same { a, b } => format!("s {a} {b}"),
        Call::Collect => "g".into(),
    }
}

fn text(answer: Answer) -> String {
    match answer {
        Answer::Done => "ok".into(),
        Answer::Number(x) => format!("ok {x}"),
        Answer::Pair(x, y) => format!("ok {x} {y}"),
        Answer::Refused(refusal) => format!("no {refusal}"),
    }
}

/// The replies to a script, a line each, where `pool` makes the calls.
pub fn replies(pool: &dyn Interface, script: &[u8]) -> String {
    run(pool, script, &[]).0
}

/// The same, where each pool has these words left over behind its cells, and the words that the script leaves, none where it has
/// no accepted `f`.
pub fn run(pool: &dyn Interface, script: &[u8], leftover: &[u32]) -> (String, Vec<u32>) {
    let mut lines: Vec<&[u8]> = script.split(|&byte| byte == b'\n').collect();
    // Behind the last line end, and in an empty script, there is no line.
    if lines.last().is_some_and(|line| line.is_empty()) {
        lines.pop();
    }
    // Before an accepted f the pool has no words, and every call is refused for the length.
    let mut words = Vec::new();
    let mut replies = String::new();
    for line in lines {
        let reply = match parse(line) {
            None => "bad".into(),
            Some(Line::Run(call)) => text(apply(pool, &mut words, call).0),
            Some(Line::Fresh(n)) if n < 1 || n as usize > MOST_CELLS => text(Answer::Refused(SIZE)),
            Some(Line::Fresh(n)) => {
                words = vec![0; words_for(n as usize)];
                words.extend(leftover);
                text(pool.fresh(&mut words).map_or_else(Answer::Refused, |_| Answer::Done))
            }
        };
        replies += &reply;
        replies.push('\n');
    }
    (replies, words)
}

/// The proved program, where it is built: CELLPOOL_RUNSCRIPT, or where `rt run` in crates/runscript, and `rt ci`, put it.
pub fn program() -> Option<PathBuf> {
    if let Some(path) = std::env::var_os("CELLPOOL_RUNSCRIPT") {
        return Some(path.into());
    }
    let path = PathBuf::from(env!("CARGO_MANIFEST_DIR")).join("../crates/runscript/out/runscript");
    path.is_file().then_some(path)
}
