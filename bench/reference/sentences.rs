//! The rules as their sentences read, worked out anew for each quarter from the whole log. Slow, and without any count that is
//! carried on, so that it checks `states.rs`.

use crate::rules::{Breach, QUARTERS_A_DAY, QUARTERS_A_WEEK, SetName, Status};

enum Layer {
    UsShift,
    EuDay,
    Break { limit: usize, length: usize, pauses: fn(Status) -> bool },
    Cycle { days: usize, limit: usize, restart: usize },
    Weeks,
    WeeklyRest,
}

fn layers(set: SetName) -> Vec<Layer> {
    let us_break = || Layer::Break { limit: 32, length: 2, pauses: off_the_wheel };
    match set {
        SetName::Us7 => vec![Layer::UsShift, us_break(), Layer::Cycle { days: 7, limit: 240, restart: 136 }],
        SetName::Us8 => vec![Layer::UsShift, us_break(), Layer::Cycle { days: 8, limit: 280, restart: 136 }],
        SetName::Eu => {
            vec![Layer::EuDay, Layer::Break { limit: 18, length: 3, pauses: rest }, Layer::Weeks, Layer::WeeklyRest]
        }
    }
}

fn rest(status: Status) -> bool {
    status == Status::Rest
}

fn off_the_wheel(status: Status) -> bool {
    status != Status::Drive
}

/// The first quarter after the latest stretch of at least `length` pausing quarters that ended before quarter `q`. Before quarter 0
/// lies a longer rest than any rule asks for, and the log's first pausing quarters belong to it.
fn after_latest(log: &[Status], q: usize, length: usize, pauses: fn(Status) -> bool) -> usize {
    let mut run = 0;
    for p in (0..q).rev() {
        run = if pauses(log[p]) { run + 1 } else { 0 };
        if run == length {
            return p + length;
        }
    }
    run
}

/// s(L) at the on-duty quarter `q`.
fn s(log: &[Status], q: usize, length: usize) -> usize {
    after_latest(log, q, length, rest)
}

fn driving(log: &[Status]) -> usize {
    log.iter().filter(|&&status| status == Status::Drive).count()
}

fn on_duty(log: &[Status]) -> usize {
    log.iter().filter(|status| status.on_duty()).count()
}

impl Layer {
    /// The lowest rule of this layer that quarter `q` of the log breaks.
    fn broken(&self, log: &[Status], q: usize) -> Option<u8> {
        let drives = log[q] == Status::Drive;
        let works = log[q].on_duty();
        match *self {
            Layer::UsShift if drives && q - s(log, q, 40) + 1 > 56 => Some(1),
            Layer::UsShift if drives && driving(&log[s(log, q, 40)..=q]) > 44 => Some(2),
            Layer::EuDay if works && q - s(log, q, 44) + 1 > 52 => Some(3),
            Layer::EuDay if drives && driving(&log[s(log, q, 44)..=q]) > 36 => Some(4),
            Layer::Break { limit, length, pauses } if drives => {
                (driving(&log[after_latest(log, q, length, pauses)..=q]) > limit).then_some(5)
            }
            Layer::Cycle { days, limit, restart } if drives => {
                let day = usize::from(QUARTERS_A_DAY);
                let first_counted = (q / day + 1).saturating_sub(days) * day;
                (on_duty(&log[s(log, q, restart).max(first_counted)..=q]) > limit).then_some(6)
            }
            Layer::Weeks if drives => {
                let week = usize::from(QUARTERS_A_WEEK);
                let monday = q / week * week;
                let this = driving(&log[monday..=q]);
                let last = driving(&log[monday.saturating_sub(week)..monday]);
                if this > 224 { Some(7) } else { (this + last > 360).then_some(8) }
            }
            Layer::WeeklyRest if works && q - s(log, q, 180) + 1 > 576 => Some(9),
            _ => None,
        }
    }
}

/// The first breach at the quarter `from` or later.
pub fn first_breach(set: SetName, log: &[Status], from: usize) -> Option<Breach> {
    let layers = layers(set);
    (from..log.len()).find_map(|q| {
        (1..)
            .zip(&layers)
            .find_map(|(number, layer)| Some(Breach { quarter: q as u16, rule: layer.broken(log, q)?, layer: number }))
    })
}
