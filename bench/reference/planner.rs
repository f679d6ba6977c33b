//! The tour and the search for the earliest end.
//!
//! At each quarter the search keeps a smallest cover of the labels that can be reached and still serve their stop in time. What is
//! covered can be left out: the label that covers it does as well with every schedule.

use crate::rules::{HORIZON, Refusal, Status};
use crate::states::State;

const MOST_STOPS: usize = 16;
/// K, the most labels kept at a quarter: a third of a sheet of 144.
pub const K: usize = 48;
/// The entries of the trail, K for each quarter of the span.
const TRAIL: usize = 18_432;
/// The letters of the output.
const OUTPUT: usize = 384;

/// Driving, then service that begins in a quarter from `open` through `close`.
#[derive(Clone, Copy, Debug)]
pub struct Stop {
    pub drive: u16,
    pub service: u16,
    pub open: u16,
    pub close: u16,
}

impl Stop {
    fn is_sound(&self) -> bool {
        self.drive <= 672
            && (1..=32).contains(&self.service)
            && self.open <= self.close
            && self.close + self.service <= HORIZON
    }

    fn window_has(&self, quarter: u16) -> bool {
        (self.open..=self.close).contains(&quarter)
    }
}

#[derive(Default)]
pub struct Tour {
    stops: Vec<Stop>,
}

impl Tour {
    pub fn stops(&self) -> &[Stop] {
        &self.stops
    }

    pub fn add(&mut self, stop: Stop) -> Result<(), Refusal> {
        if self.stops.len() == MOST_STOPS {
            Err(Refusal::TourFull)
        } else if !stop.is_sound() {
            Err(Refusal::Field)
        } else {
            self.stops.push(stop);
            Ok(())
        }
    }

    pub fn drop_last(&mut self) -> Result<(), Refusal> {
        self.stops.pop().map(|_| ()).ok_or(Refusal::NoStop)
    }
}

/// Where a driver stands before a quarter.
#[derive(Clone, Copy)]
struct Label<S> {
    /// The first stop that is not fully served.
    stop: u8,
    /// All of the stop's service until it begins.
    service_left: u8,
    drive_left: u16,
    state: S,
    /// How the label was reached: the label before it, as a place in the trail, and the status between them.
    before: u32,
    by: Status,
}

impl<S: State> Label<S> {
    fn covers(&self, other: &Self) -> bool {
        self.stop == other.stop
            && self.service_left == other.service_left
            && self.drive_left <= other.drive_left
            && self.state.at_least_as_well_off(&other.state)
    }
}

/// The search, with its buffers, which are used again from plan to plan.
pub struct Planner<S> {
    labels: Vec<Label<S>>,
    next: Vec<Label<S>>,
    /// For each label kept at a quarter up to now, the place of the one before it and the status between them.
    trail: Vec<(u32, Status)>,
    schedule: Vec<Status>,
    most_kept: usize,
}

impl<S: State> Planner<S> {
    pub fn new() -> Self {
        Planner { labels: Vec::new(), next: Vec::new(), trail: Vec::new(), schedule: Vec::new(), most_kept: 0 }
    }

    /// The letters of the last plan that was taken.
    pub fn schedule(&self) -> &[Status] {
        &self.schedule
    }

    /// The most labels at a quarter of the last search.
    pub fn most_kept(&self) -> usize {
        self.most_kept
    }

    /// The earliest end of letters that begin at the quarter `now` and serve the stops.
    pub fn plan(&mut self, state: &S, now: u16, stops: &[Stop]) -> Result<u16, Refusal> {
        self.most_kept = 0;
        let Some(last) = stops.last() else {
            return Err(Refusal::NoStop);
        };
        let latest_end = last.close + last.service;
        let span = usize::from(latest_end.saturating_sub(now));
        if K * span > TRAIL {
            return Err(Refusal::Trail);
        }
        if span > OUTPUT {
            return Err(Refusal::Output);
        }
        self.start(state, now, stops);
        for quarter in now..latest_end {
            if let Some(served) = self.advance(quarter, stops) {
                self.write_schedule(served);
                return Ok(quarter + 1);
            }
            // At the latest end there is nothing left to reach, so the labels there do not count.
            if quarter + 1 < latest_end {
                self.most_kept = self.most_kept.max(self.labels.len());
                if self.labels.len() > K {
                    return Err(Refusal::Labels);
                }
            }
        }
        Err(Refusal::NoSchedule)
    }

    fn start(&mut self, state: &S, now: u16, stops: &[Stop]) {
        self.labels.clear();
        self.trail.clear();
        let first = &stops[0];
        if now + first.drive <= first.close {
            self.labels.push(Label {
                stop: 0,
                service_left: first.service as u8,
                drive_left: first.drive,
                state: *state,
                before: 0,
                by: Status::Rest,
            });
        }
        self.most_kept = self.labels.len();
    }

    /// Goes from the labels at a quarter to those at the next. Gives the place in the trail of a label from which one more quarter
    /// of work serves the whole tour.
    fn advance(&mut self, quarter: u16, stops: &[Stop]) -> Option<u32> {
        let Planner { labels, next, trail, .. } = self;
        next.clear();
        for label in labels.iter() {
            let stop = &stops[usize::from(label.stop)];
            let here = trail.len() as u32;
            trail.push((label.before, label.by));
            let moved = |by| {
                let mut state = label.state;
                state.step(quarter, by);
                Label { state, before: here, by, ..*label }
            };
            let begun = u16::from(label.service_left) < stop.service;
            if !begun && quarter + 1 + label.drive_left <= stop.close {
                offer(next, moved(Status::Rest));
            }
            if label.drive_left > 0 {
                // A quarter of driving leaves as much room before the close as there was.
                if label.state.broken(Status::Drive).is_none() {
                    offer(next, Label { drive_left: label.drive_left - 1, ..moved(Status::Drive) });
                }
            } else if (begun || stop.window_has(quarter)) && label.state.broken(Status::Work).is_none() {
                if label.service_left > 1 {
                    offer(next, Label { service_left: label.service_left - 1, ..moved(Status::Work) });
                } else if let Some(following) = stops.get(usize::from(label.stop) + 1) {
                    if quarter + 1 + following.drive <= following.close {
                        offer(
                            next,
                            Label {
                                stop: label.stop + 1,
                                service_left: following.service as u8,
                                drive_left: following.drive,
                                ..moved(Status::Work)
                            },
                        );
                    }
                } else {
                    return Some(here);
                }
            }
        }
        std::mem::swap(labels, next);
        None
    }

    fn write_schedule(&mut self, served: u32) {
        self.schedule.clear();
        self.schedule.push(Status::Work);
        let mut place = served;
        while place != 0 {
            let (before, by) = self.trail[place as usize];
            self.schedule.push(by);
            place = before;
        }
        self.schedule.reverse();
    }
}

/// Keeps a smallest cover of all labels offered so far.
fn offer<S: State>(kept: &mut Vec<Label<S>>, new: Label<S>) {
    let mut place = 0;
    while place < kept.len() {
        // Where a kept label covers the new one, the new one covers no other kept one.
        if kept[place].covers(&new) {
            return;
        }
        if new.covers(&kept[place]) {
            kept.swap_remove(place);
        } else {
            place += 1;
        }
    }
    kept.push(new);
}
