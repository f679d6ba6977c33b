//! Checks a reply of `hours` without searching: every schedule quarter by quarter against the sentences and the stops, and every
//! other line but the refusals 10 and 11 and the earliest end, which take a search.

use crate::planner::Stop;
use crate::rules::{Breach, HORIZON, SetName, Status};
use crate::sentences;
use crate::text::{Line, MOST_REPLY, MOST_TEXT, lines, read_number, set_of};

/// What is wrong with a reply to a text.
pub fn check(text: &[u8], reply: &[u8]) -> Result<(), String> {
    if text.len() > MOST_TEXT {
        return expect(reply == b"refused,0,2\n", "a text that is too long is refused with 2");
    }
    if reply == b"refused,0,9\n" {
        return Ok(());
    }
    expect(reply.len() <= MOST_REPLY, "the reply is too long")?;
    expect(reply.is_empty() || reply.ends_with(b"\n"), "the last line does not end")?;
    let mut checker = Checker { set: set_of(text), log: Vec::new(), stops: Vec::new() };
    let mut answers = lines(reply).map(|(_, line)| line).peekable();
    for (number, line) in lines(text) {
        checker.check_line(number, line, &mut answers).map_err(|wrong| format!("line {number}: {wrong}"))?;
    }
    expect(answers.next().is_none(), "the reply goes on after the last line's answer")
}

fn expect(holds: bool, wrong: &str) -> Result<(), String> {
    if holds { Ok(()) } else { Err(wrong.to_string()) }
}

/// The letters recorded and the stops left.
struct Checker {
    set: SetName,
    log: Vec<Status>,
    stops: Vec<Stop>,
}

impl Checker {
    fn check_line<'a>(
        &mut self,
        number: usize,
        line: &[u8],
        answers: &mut std::iter::Peekable<impl Iterator<Item = &'a [u8]>>,
    ) -> Result<(), String> {
        let refusal = match Line::read(number, line) {
            None => Some("12".to_string()),
            Some(Line::Rules(_)) => None,
            Some(Line::Done { letter, count }) => self.record(letter, count.into()),
            Some(Line::Stop(stop)) => self.add(stop),
            Some(Line::Drop) => self.stops.pop().is_none().then(|| "6".to_string()),
            Some(Line::Plan) => match self.unready() {
                Some(refused) => Some(refused.to_string()),
                None => return self.check_plan(number, answers),
            },
        };
        let Some(refusal) = refusal else {
            return Ok(());
        };
        let wanted = format!("refused,{number},{refusal}");
        let got = answers.next().unwrap_or_default();
        expect(got == wanted.as_bytes(), &format!("wanted {wanted}, got {}", got.escape_ascii()))
    }

    fn record(&mut self, letter: u8, count: usize) -> Option<String> {
        let Some(status) = Status::from_letter(letter) else {
            return Some("1".to_string());
        };
        let now = self.log.len();
        if count == 0 || now + count > usize::from(HORIZON) {
            return Some("2".to_string());
        }
        self.log.resize(now + count, status);
        let Breach { quarter, rule, layer } = sentences::first_breach(self.set, &self.log, now)?;
        self.log.truncate(now);
        Some(format!("3,{quarter},{rule},{layer}"))
    }

    fn add(&mut self, stop: Stop) -> Option<String> {
        let Stop { drive, service, open, close } = stop;
        if self.stops.len() == 16 {
            Some("4".to_string())
        } else if drive > 672 || !(1..=32).contains(&service) || open > close || close + service > 2688 {
            Some("5".to_string())
        } else {
            self.stops.push(stop);
            None
        }
    }

    /// A span of more than 384 wants a longer trail, and that is looked at first.
    fn unready(&self) -> Option<u8> {
        let Some(last) = self.stops.last() else {
            return Some(6);
        };
        (usize::from(last.close + last.service) > self.log.len() + 384).then_some(8)
    }

    fn check_plan<'a>(
        &self,
        number: usize,
        answers: &mut std::iter::Peekable<impl Iterator<Item = &'a [u8]>>,
    ) -> Result<(), String> {
        let head = answers.next().unwrap_or_default();
        if [10, 11].iter().any(|refused| head == format!("refused,{number},{refused}").as_bytes()) {
            return Ok(());
        }
        expect(head == format!("plan,{number}").as_bytes(), "the plan's first line is wrong")?;
        let mut log = self.log.clone();
        let mut run_before = None;
        while let Some(run) = answers.next_if(|line| line.first().is_some_and(u8::is_ascii_digit)) {
            let (first, status, count) = read_run(run).ok_or("a run is not well spelled")?;
            expect(first == log.len(), "a run does not begin where the one before ended")?;
            expect(count > 0 && run_before != Some(status), "a run is not a whole run")?;
            run_before = Some(status);
            log.resize(first + count, status);
        }
        let end = answers.next().unwrap_or_default();
        expect(end == format!("end,{}", log.len()).as_bytes(), "the end is not the quarter after the last")?;
        if let Some(breach) = sentences::first_breach(self.set, &log, self.log.len()) {
            return Err(format!("the schedule is not lawful: {breach:?}"));
        }
        self.check_served(&log)
    }

    /// Each stop has rest and exactly its driving, then exactly its service, unbroken and begun in its window.
    fn check_served(&self, log: &[Status]) -> Result<(), String> {
        let mut quarter = self.log.len();
        for (number, stop) in (1..).zip(&self.stops) {
            let travel = log[quarter..].iter().take_while(|&&status| status != Status::Work);
            let (length, drive) = travel
                .fold((0, 0), |(length, drive), &status| (length + 1, drive + u16::from(status == Status::Drive)));
            expect(drive == stop.drive, &format!("stop {number} has {drive} quarters of driving"))?;
            quarter += length;
            let begins = quarter as u16;
            expect(stop.open <= begins && begins <= stop.close, &format!("stop {number} is served from {begins}"))?;
            let service = log[quarter..].iter().take(stop.service.into());
            let work = service.filter(|&&status| status == Status::Work).count();
            expect(work == usize::from(stop.service), &format!("stop {number} has {work} quarters of service"))?;
            quarter += work;
        }
        expect(quarter == log.len(), "the schedule goes on after the last stop")
    }
}

/// The first quarter, the status and the length of a schedule's run.
fn read_run(line: &[u8]) -> Option<(usize, Status, usize)> {
    let mut fields = line.split(|&byte| byte == b',');
    let first = read_number(fields.next()?)?;
    let &[letter] = fields.next()? else {
        return None;
    };
    let count = read_number(fields.next()?)?;
    let run = (first.into(), Status::from_letter(letter)?, count.into());
    fields.next().is_none().then_some(run)
}
