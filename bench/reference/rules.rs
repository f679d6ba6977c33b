//! What the other files share: statuses, the names of the rule sets, breaches and refusals.

pub const QUARTERS_A_DAY: u16 = 96;
pub const QUARTERS_A_WEEK: u16 = 672;
/// The quarters that a log can have.
pub const HORIZON: u16 = 2688;

/// What a driver does in a quarter of an hour.
#[derive(Clone, Copy, PartialEq, Eq, Debug)]
pub enum Status {
    Rest,
    Work,
    Drive,
}

impl Status {
    pub fn from_letter(letter: u8) -> Option<Status> {
        match letter {
            b'R' => Some(Status::Rest),
            b'W' => Some(Status::Work),
            b'D' => Some(Status::Drive),
            _ => None,
        }
    }

    pub fn letter(self) -> char {
        match self {
            Status::Rest => 'R',
            Status::Work => 'W',
            Status::Drive => 'D',
        }
    }

    pub fn on_duty(self) -> bool {
        self != Status::Rest
    }
}

/// The rule sets by name. `states.rs` and `sentences.rs` each say what is in them.
#[derive(Clone, Copy, PartialEq, Eq, Debug)]
pub enum SetName {
    Us7,
    Us8,
    Eu,
}

impl SetName {
    pub fn from_bytes(name: &[u8]) -> Option<SetName> {
        match name {
            b"us7" => Some(SetName::Us7),
            b"us8" => Some(SetName::Us8),
            b"eu" => Some(SetName::Eu),
            _ => None,
        }
    }
}

/// A quarter that breaks a rule, and the layer that has the rule, counted from 1.
#[derive(Clone, Copy, PartialEq, Eq, Debug)]
pub struct Breach {
    pub quarter: u16,
    pub rule: u8,
    pub layer: u8,
}

/// Why a call is not answered. The number 7, a sheet of a wrong size, cannot come up here: the sheet's size is given.
#[derive(Clone, Copy, PartialEq, Eq, Debug)]
pub enum Refusal {
    Letter,
    Horizon,
    Breach(Breach),
    TourFull,
    Field,
    NoStop,
    Trail,
    Output,
    NoSchedule,
    Labels,
    Spelling,
}

impl Refusal {
    pub fn number(self) -> u8 {
        match self {
            Refusal::Letter => 1,
            Refusal::Horizon => 2,
            Refusal::Breach(_) => 3,
            Refusal::TourFull => 4,
            Refusal::Field => 5,
            Refusal::NoStop => 6,
            Refusal::Trail => 8,
            Refusal::Output => 9,
            Refusal::NoSchedule => 10,
            Refusal::Labels => 11,
            Refusal::Spelling => 12,
        }
    }
}
