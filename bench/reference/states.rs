//! The rule sets as states that go on quarter by quarter.
//!
//! All figures are kept so that less is better: in place of the length of a run stands how much is missing until it is full.
//! So the state before quarter 0 is all 0, and a state is at least as well off as another where no figure of it is larger.

use crate::rules::{QUARTERS_A_DAY, QUARTERS_A_WEEK, Status};

/// One layer of a rule set.
pub trait Layer: Copy {
    /// The state before quarter 0.
    const OPENING: Self;

    /// The rule that the next quarter would break with this status.
    fn broken(&self, status: Status) -> Option<u8>;

    /// The state after the quarter, which breaks no rule.
    fn step(&mut self, quarter: u16, status: Status);

    fn at_least_as_well_off(&self, other: &Self) -> bool;
}

/// The quarters since a rest of at least `REST` quarters, held at `MOST`.
#[derive(Clone, Copy)]
struct Since<const REST: u16, const MOST: u16> {
    quarters: u16,
    rest_missing: u16,
}

impl<const REST: u16, const MOST: u16> Since<REST, MOST> {
    const OPENING: Self = Since { quarters: 0, rest_missing: 0 };

    fn is_over(&self) -> bool {
        self.quarters == MOST
    }

    fn is_rested(&self) -> bool {
        self.rest_missing == 0
    }

    fn step(&mut self, status: Status) {
        self.rest_missing = match status {
            Status::Rest => self.rest_missing.saturating_sub(1),
            Status::Work | Status::Drive => REST,
        };
        self.quarters = if self.is_rested() { 0 } else { MOST.min(self.quarters + 1) };
    }

    fn at_least_as_well_off(&self, other: &Self) -> bool {
        self.quarters <= other.quarters && self.rest_missing <= other.rest_missing
    }
}

/// Rules 1 and 2.
#[derive(Clone, Copy)]
pub struct UsShift {
    since: Since<40, 56>,
    driven: u16,
}

impl Layer for UsShift {
    const OPENING: Self = UsShift { since: Since::OPENING, driven: 0 };

    fn broken(&self, status: Status) -> Option<u8> {
        match status {
            Status::Drive if self.since.is_over() => Some(1),
            Status::Drive if self.driven == 44 => Some(2),
            _ => None,
        }
    }

    fn step(&mut self, _quarter: u16, status: Status) {
        self.since.step(status);
        self.driven = driven_after(self.driven, status, self.since.is_rested());
    }

    fn at_least_as_well_off(&self, other: &Self) -> bool {
        self.driven <= other.driven && self.since.at_least_as_well_off(&other.since)
    }
}

/// Rules 3 and 4.
#[derive(Clone, Copy)]
pub struct EuDay {
    since: Since<44, 52>,
    driven: u16,
}

impl Layer for EuDay {
    const OPENING: Self = EuDay { since: Since::OPENING, driven: 0 };

    fn broken(&self, status: Status) -> Option<u8> {
        match status {
            Status::Work | Status::Drive if self.since.is_over() => Some(3),
            Status::Drive if self.driven == 36 => Some(4),
            _ => None,
        }
    }

    fn step(&mut self, _quarter: u16, status: Status) {
        self.since.step(status);
        self.driven = driven_after(self.driven, status, self.since.is_rested());
    }

    fn at_least_as_well_off(&self, other: &Self) -> bool {
        self.driven <= other.driven && self.since.at_least_as_well_off(&other.since)
    }
}

/// The driving counted after a quarter, which turns 0 with a long enough rest.
fn driven_after(driven: u16, status: Status, rested: bool) -> u16 {
    if rested { 0 } else { driven + u16::from(status == Status::Drive) }
}

/// Rule 5. Work is part of a pause where it is off the wheel.
#[derive(Clone, Copy)]
pub struct Break<const LIMIT: u16, const LENGTH: u16, const OFF_THE_WHEEL: bool> {
    driven: u16,
    pause_missing: u16,
}

impl<const LIMIT: u16, const LENGTH: u16, const OFF_THE_WHEEL: bool> Layer for Break<LIMIT, LENGTH, OFF_THE_WHEEL> {
    const OPENING: Self = Break { driven: 0, pause_missing: 0 };

    fn broken(&self, status: Status) -> Option<u8> {
        (status == Status::Drive && self.driven == LIMIT).then_some(5)
    }

    fn step(&mut self, _quarter: u16, status: Status) {
        let pauses = match status {
            Status::Rest => true,
            Status::Work => OFF_THE_WHEEL,
            Status::Drive => false,
        };
        self.pause_missing = if pauses { self.pause_missing.saturating_sub(1) } else { LENGTH };
        self.driven = driven_after(self.driven, status, self.pause_missing == 0);
    }

    fn at_least_as_well_off(&self, other: &Self) -> bool {
        self.driven <= other.driven && self.pause_missing <= other.pause_missing
    }
}

/// Rule 6: the on-duty quarters of each of the latest days, today first.
#[derive(Clone, Copy)]
pub struct Cycle<const DAYS: usize, const LIMIT: u16, const RESTART: u16> {
    on_duty: [u8; DAYS],
    rest_missing: u16,
}

impl<const DAYS: usize, const LIMIT: u16, const RESTART: u16> Layer for Cycle<DAYS, LIMIT, RESTART> {
    const OPENING: Self = Cycle { on_duty: [0; DAYS], rest_missing: 0 };

    fn broken(&self, status: Status) -> Option<u8> {
        let counted: u16 = self.on_duty.iter().map(|&day| u16::from(day)).sum();
        (status == Status::Drive && counted >= LIMIT).then_some(6)
    }

    fn step(&mut self, quarter: u16, status: Status) {
        if status.on_duty() {
            self.rest_missing = RESTART;
            self.on_duty[0] += 1;
        } else {
            self.rest_missing = self.rest_missing.saturating_sub(1);
            if self.rest_missing == 0 {
                self.on_duty = [0; DAYS];
            }
        }
        if (quarter + 1) % QUARTERS_A_DAY == 0 {
            self.on_duty.rotate_right(1);
            self.on_duty[0] = 0;
        }
    }

    fn at_least_as_well_off(&self, other: &Self) -> bool {
        self.rest_missing <= other.rest_missing
            && self.on_duty.iter().zip(&other.on_duty).all(|(ours, theirs)| ours <= theirs)
    }
}

/// Rules 7 and 8: the driving of this week and of the last.
#[derive(Clone, Copy)]
pub struct Weeks {
    this: u16,
    last: u16,
}

impl Layer for Weeks {
    const OPENING: Self = Weeks { this: 0, last: 0 };

    fn broken(&self, status: Status) -> Option<u8> {
        match status {
            Status::Drive if self.this >= 224 => Some(7),
            Status::Drive if self.this + self.last >= 360 => Some(8),
            _ => None,
        }
    }

    fn step(&mut self, quarter: u16, status: Status) {
        self.this += u16::from(status == Status::Drive);
        if (quarter + 1) % QUARTERS_A_WEEK == 0 {
            self.last = self.this;
            self.this = 0;
        }
    }

    fn at_least_as_well_off(&self, other: &Self) -> bool {
        self.this <= other.this && self.last <= other.last
    }
}

/// Rule 9.
#[derive(Clone, Copy)]
pub struct WeeklyRest {
    since: Since<180, 576>,
}

impl Layer for WeeklyRest {
    const OPENING: Self = WeeklyRest { since: Since::OPENING };

    fn broken(&self, status: Status) -> Option<u8> {
        (status.on_duty() && self.since.is_over()).then_some(9)
    }

    fn step(&mut self, _quarter: u16, status: Status) {
        self.since.step(status);
    }

    fn at_least_as_well_off(&self, other: &Self) -> bool {
        self.since.at_least_as_well_off(&other.since)
    }
}

/// A pile of layers: nothing, or a layer on a pile.
pub trait State: Copy {
    const OPENING: Self;
    const LAYERS: u8;

    /// The rule that the next quarter would break with this status, the lowest layer's first, and that layer.
    fn broken(&self, status: Status) -> Option<(u8, u8)>;

    fn step(&mut self, quarter: u16, status: Status);

    fn at_least_as_well_off(&self, other: &Self) -> bool;
}

impl State for () {
    const OPENING: Self = ();
    const LAYERS: u8 = 0;

    fn broken(&self, _status: Status) -> Option<(u8, u8)> {
        None
    }

    fn step(&mut self, _quarter: u16, _status: Status) {}

    fn at_least_as_well_off(&self, _other: &Self) -> bool {
        true
    }
}

impl<Below: State, Top: Layer> State for (Below, Top) {
    const OPENING: Self = (Below::OPENING, Top::OPENING);
    const LAYERS: u8 = Below::LAYERS + 1;

    fn broken(&self, status: Status) -> Option<(u8, u8)> {
        self.0.broken(status).or_else(|| Some((self.1.broken(status)?, Self::LAYERS)))
    }

    fn step(&mut self, quarter: u16, status: Status) {
        self.0.step(quarter, status);
        self.1.step(quarter, status);
    }

    fn at_least_as_well_off(&self, other: &Self) -> bool {
        self.0.at_least_as_well_off(&other.0) && self.1.at_least_as_well_off(&other.1)
    }
}

pub type Us7 = ((((), UsShift), Break<32, 2, true>), Cycle<7, 240, 136>);
pub type Us8 = ((((), UsShift), Break<32, 2, true>), Cycle<8, 280, 136>);
pub type Eu = (((((), EuDay), Break<18, 3, false>), Weeks), WeeklyRest);
