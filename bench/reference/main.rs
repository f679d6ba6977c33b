//! The judge and the planner once more, in plain Rust and written without a look at the crates, to compare the proved programs with.
//!
//! Built with `rustc -O`. The first argument says what is done with standard input; bench/reference/README.md lists the modes.

mod check;
mod judge;
mod planner;
mod rules;
mod sentences;
mod states;
mod text;

use std::hint::black_box;
use std::io::{self, BufWriter, Read, Write};
use std::process::ExitCode;

use rules::{HORIZON, Refusal, SetName};

fn main() -> ExitCode {
    let arguments: Vec<String> = std::env::args().skip(1).collect();
    let arguments: Vec<&str> = arguments.iter().map(String::as_str).collect();
    match run(&arguments) {
        Ok(()) => ExitCode::SUCCESS,
        Err(wrong) => {
            eprintln!("reference: {wrong}");
            ExitCode::FAILURE
        }
    }
}

fn run(arguments: &[&str]) -> io::Result<()> {
    let mut input = Vec::new();
    io::stdin().lock().read_to_end(&mut input)?;
    let mut out = BufWriter::new(io::stdout().lock());
    match arguments {
        ["hours"] => out.write_all(&text::printed(&input))?,
        ["audit"] => writeln!(out, "{}", audit(&input))?,
        ["batch"] => {
            for (case, text) in (1..).zip(frames(&input)) {
                writeln!(out, "case,{case}")?;
                out.write_all(&text::printed(text?))?;
            }
        }
        ["batch-logs"] => {
            for log in frames(&input) {
                writeln!(out, "{}", audit_twice(log?))?;
            }
        }
        ["check-schedules"] => {
            let mut given = frames(&input);
            while let Some(text) = given.next() {
                let reply = given.next().unwrap_or_else(|| Err(malformed("a text without a reply")))?;
                match check::check(text?, reply) {
                    Ok(()) => writeln!(out, "right")?,
                    Err(wrong) => writeln!(out, "wrong: {wrong}")?,
                }
            }
        }
        ["vectors-hours"] => {
            for (case, text) in (1..).zip(frames(&input)) {
                writeln!(out, "case,{case}")?;
                let reply = text::printed(text?);
                for line in reply.split_inclusive(|&byte| byte == b'\n').filter(|line| !line[0].is_ascii_digit()) {
                    out.write_all(line)?;
                }
            }
        }
        ["vectors-judge"] => {
            for (_, line) in text::lines(&input) {
                writeln!(out, "{}", judge_runs(line)?)?;
            }
        }
        ["bench", repeat] => {
            let repeat: usize = repeat.parse().map_err(|_| malformed("REPEAT is no number"))?;
            for _ in 1..repeat {
                let _ = black_box(text::answer(black_box(&input)));
            }
            for (line, kept) in text::answer(&input).unwrap_or_default().kept {
                writeln!(out, "kept,{line},{kept}")?;
            }
        }
        _ => return Err(malformed("no such mode; bench/reference/README.md lists them")),
    }
    out.flush()
}

fn malformed(wrong: &str) -> io::Error {
    io::Error::new(io::ErrorKind::InvalidData, wrong)
}

/// The first line that `audit` prints.
fn audit(input: &[u8]) -> String {
    match judge::read_audit(input) {
        Ok((set, log)) => judge::verdict_line(set, &log),
        Err(refusal) => refused(refusal),
    }
}

/// The same, and a complaint where the sentences say something else.
fn audit_twice(input: &[u8]) -> String {
    if let Ok((set, log)) = judge::read_audit(input) {
        let by_states = judge::first_breach(set, &log);
        let by_sentences = sentences::first_breach(set, &log, 0);
        if by_states != by_sentences {
            return format!("the reference disagrees with itself: {by_states:?}, {by_sentences:?}");
        }
    }
    audit(input)
}

fn refused(refusal: Refusal) -> String {
    format!("refused,{}", refusal.number())
}

/// Judges a set's name and a log written as runs, such as `us7 W240 R40 D1`. A run's letter may be any byte.
fn judge_runs(line: &[u8]) -> io::Result<String> {
    let mut words = line.split(|&byte| byte == b' ');
    let set = words.next().and_then(SetName::from_bytes).ok_or_else(|| malformed("no rule set"))?;
    let mut letters = Vec::new();
    for run in words {
        let (&letter, count) = run.split_first().ok_or_else(|| malformed("an empty run"))?;
        let count: usize = read_decimal(count).ok_or_else(|| malformed("a run without a count"))?;
        // One letter more than the horizon is enough to be refused.
        let room = usize::from(HORIZON) + 1 - letters.len();
        letters.extend(std::iter::repeat_n(letter, count.min(room)));
    }
    Ok(match judge::read_log(&letters) {
        Ok(log) => judge::verdict_line(set, &log),
        Err(refusal) => refused(refusal),
    })
}

/// The byte strings of an input that gives of each the length and a line end, the bytes, and one more line end.
fn frames(mut input: &[u8]) -> impl Iterator<Item = io::Result<&[u8]>> {
    std::iter::from_fn(move || {
        if input.is_empty() {
            return None;
        }
        let frame = take_frame(&mut input);
        if frame.is_none() {
            input = &[];
        }
        Some(frame.ok_or_else(|| malformed("a byte string is not framed as it should be")))
    })
}

fn take_frame<'a>(input: &mut &'a [u8]) -> Option<&'a [u8]> {
    let digits = input.iter().position(|&byte| byte == b'\n')?;
    let length: usize = read_decimal(&input[..digits])?;
    let (frame, rest) = input[digits + 1..].split_at_checked(length)?;
    *input = rest.strip_prefix(b"\n")?;
    Some(frame)
}

fn read_decimal(digits: &[u8]) -> Option<usize> {
    std::str::from_utf8(digits).ok()?.parse().ok()
}
