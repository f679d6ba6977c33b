//! The text of `hours` and its reply.

use std::io::Write;

use crate::planner::{Planner, Stop, Tour};
use crate::rules::{Breach, HORIZON, Refusal, SetName, Status};
use crate::states::{Eu, State, Us7, Us8};

/// The most bytes of a text.
pub const MOST_TEXT: usize = 4096;
/// The most bytes of a reply.
pub const MOST_REPLY: usize = 65_536;

pub enum Line {
    Rules(SetName),
    Done { letter: u8, count: u16 },
    Stop(Stop),
    Drop,
    Plan,
}

impl Line {
    /// Reads the line of this number, where it is spelled as it should be.
    pub fn read(number: usize, line: &[u8]) -> Option<Line> {
        let mut fields = line.split(|&byte| byte == b',');
        let read = match fields.next()? {
            b"rules" if number == 1 => Line::Rules(SetName::from_bytes(fields.next()?)?),
            b"done" => {
                let &[letter] = fields.next()? else {
                    return None;
                };
                Line::Done { letter, count: read_number(fields.next()?)? }
            }
            b"stop" => Line::Stop(Stop {
                drive: read_number(fields.next()?)?,
                service: read_number(fields.next()?)?,
                open: read_number(fields.next()?)?,
                close: read_number(fields.next()?)?,
            }),
            b"drop" => Line::Drop,
            b"plan" => Line::Plan,
            _ => return None,
        };
        fields.next().is_none().then_some(read)
    }
}

/// 1 to 4 digits without a needless leading 0.
pub fn read_number(field: &[u8]) -> Option<u16> {
    let needless = field.len() > 1 && field[0] == b'0';
    if needless || !(1..=4).contains(&field.len()) || !field.iter().all(u8::is_ascii_digit) {
        return None;
    }
    Some(field.iter().fold(0, |number, digit| 10 * number + u16::from(digit - b'0')))
}

/// The lines of a text with their numbers. A line ends with byte 10, which the last may lack.
pub fn lines(text: &[u8]) -> impl Iterator<Item = (usize, &[u8])> {
    let ended = text.strip_suffix(b"\n").unwrap_or(text);
    let count = if text.is_empty() { 0 } else { usize::MAX };
    (1..).zip(ended.split(|&byte| byte == b'\n')).take(count)
}

/// The set that a text's first line names, or us7.
pub fn set_of(text: &[u8]) -> SetName {
    match lines(text).next().and_then(|(number, line)| Line::read(number, line)) {
        Some(Line::Rules(set)) => set,
        _ => SetName::Us7,
    }
}

/// What a text is answered.
#[derive(Default)]
pub struct Reply {
    pub bytes: Vec<u8>,
    /// For each plan its line and the most labels kept at a quarter, 0 where there was no search.
    pub kept: Vec<(usize, usize)>,
}

pub fn answer(text: &[u8]) -> Result<Reply, Refusal> {
    if text.len() > MOST_TEXT {
        return Err(Refusal::Horizon);
    }
    let reply = match set_of(text) {
        SetName::Us7 => Session::<Us7>::new().answer(text),
        SetName::Us8 => Session::<Us8>::new().answer(text),
        SetName::Eu => Session::<Eu>::new().answer(text),
    };
    if reply.bytes.len() > MOST_REPLY {
        return Err(Refusal::Output);
    }
    Ok(reply)
}

/// The bytes that `hours` prints.
pub fn printed(text: &[u8]) -> Vec<u8> {
    match answer(text) {
        Ok(reply) => reply.bytes,
        Err(refusal) => format!("refused,0,{}\n", refusal.number()).into_bytes(),
    }
}

/// A driver's state and tour, and what the lines up to now were answered.
struct Session<S> {
    state: S,
    now: u16,
    tour: Tour,
    planner: Planner<S>,
    reply: Reply,
}

impl<S: State> Session<S> {
    fn new() -> Self {
        Session { state: S::OPENING, now: 0, tour: Tour::default(), planner: Planner::new(), reply: Reply::default() }
    }

    fn answer(mut self, text: &[u8]) -> Reply {
        for (number, line) in lines(text) {
            let taken = match Line::read(number, line) {
                None => Err(Refusal::Spelling),
                Some(Line::Rules(_)) => Ok(()),
                Some(Line::Done { letter, count }) => self.record(letter, count),
                Some(Line::Stop(stop)) => self.tour.add(stop),
                Some(Line::Drop) => self.tour.drop_last(),
                Some(Line::Plan) => self.plan(number),
            };
            if let Err(refusal) = taken {
                self.write_refusal(number, refusal);
            }
            if self.reply.bytes.len() > MOST_REPLY {
                break;
            }
        }
        self.reply
    }

    fn record(&mut self, letter: u8, count: u16) -> Result<(), Refusal> {
        let status = Status::from_letter(letter).ok_or(Refusal::Letter)?;
        if count == 0 || count > HORIZON - self.now {
            return Err(Refusal::Horizon);
        }
        let mut state = self.state;
        let end = self.now + count;
        for quarter in self.now..end {
            if let Some((rule, layer)) = state.broken(status) {
                return Err(Refusal::Breach(Breach { quarter, rule, layer }));
            }
            state.step(quarter, status);
        }
        self.state = state;
        self.now = end;
        Ok(())
    }

    fn plan(&mut self, number: usize) -> Result<(), Refusal> {
        let found = self.planner.plan(&self.state, self.now, self.tour.stops());
        self.reply.kept.push((number, self.planner.most_kept()));
        self.write_plan(number, found?);
        Ok(())
    }

    fn write_plan(&mut self, number: usize, end: u16) {
        let out = &mut self.reply.bytes;
        print_line(out, format_args!("plan,{number}"));
        let mut first = usize::from(self.now);
        for run in self.planner.schedule().chunk_by(|a, b| a == b) {
            print_line(out, format_args!("{first},{},{}", run[0].letter(), run.len()));
            first += run.len();
        }
        print_line(out, format_args!("end,{end}"));
    }

    fn write_refusal(&mut self, line: usize, refusal: Refusal) {
        let out = &mut self.reply.bytes;
        let number = refusal.number();
        match refusal {
            Refusal::Breach(Breach { quarter, rule, layer }) => {
                print_line(out, format_args!("refused,{line},{number},{quarter},{rule},{layer}"));
            }
            _ => print_line(out, format_args!("refused,{line},{number}")),
        }
    }
}

fn print_line(out: &mut Vec<u8>, line: std::fmt::Arguments) {
    writeln!(out, "{line}").expect("a vector takes all bytes");
}
