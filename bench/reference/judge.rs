//! Judges a log quarter by quarter, and reads the input of `audit`.

use crate::rules::{Breach, HORIZON, Refusal, SetName, Status};
use crate::states::{Eu, State, Us7, Us8};

/// The most bytes that `audit` takes.
const INPUT: usize = 65_536;

/// The first breach of a log, which is at most as long as the horizon.
pub fn first_breach(set: SetName, log: &[Status]) -> Option<Breach> {
    match set {
        SetName::Us7 => first_breach_in::<Us7>(log),
        SetName::Us8 => first_breach_in::<Us8>(log),
        SetName::Eu => first_breach_in::<Eu>(log),
    }
}

fn first_breach_in<S: State>(log: &[Status]) -> Option<Breach> {
    let mut state = S::OPENING;
    for (quarter, &status) in (0..).zip(log) {
        if let Some((rule, layer)) = state.broken(status) {
            return Some(Breach { quarter, rule, layer });
        }
        state.step(quarter, status);
    }
    None
}

/// The statuses of a log's letters: refused with 2, then with 1.
pub fn read_log(letters: &[u8]) -> Result<Vec<Status>, Refusal> {
    if letters.len() > usize::from(HORIZON) {
        return Err(Refusal::Horizon);
    }
    letters.iter().map(|&letter| Status::from_letter(letter).ok_or(Refusal::Letter)).collect()
}

/// The set and the log of an input of `audit`, which reads one byte more than it takes, and no further.
pub fn read_audit(input: &[u8]) -> Result<(SetName, Vec<Status>), Refusal> {
    let input = &input[..input.len().min(INPUT + 1)];
    let first_end = input.iter().position(|&byte| byte == b'\n').unwrap_or(input.len());
    let (first, rest) = input.split_at(first_end);
    let set = SetName::from_bytes(first.trim_ascii()).ok_or(Refusal::Spelling)?;
    if input.len() > INPUT {
        return Err(Refusal::Horizon);
    }
    let letters: Vec<u8> = rest.iter().copied().filter(|byte| !byte.is_ascii_whitespace()).collect();
    Ok((set, read_log(&letters)?))
}

/// The first line that `audit` prints.
pub fn verdict_line(set: SetName, log: &[Status]) -> String {
    match first_breach(set, log) {
        None => format!("lawful,{}", log.len()),
        Some(Breach { quarter, rule, layer }) => format!("breach,{quarter},{rule},{layer}"),
    }
}
