//! What load, step and write answer: document 01's number and place, and a step's motion request.
//! Fields in the order of the structs of include/bias.h.

use crate::number::SUCCESS;

/// The answer of load and write; parts of a place that are not named are 0.
#[repr(C)]
#[derive(Clone, Copy, Debug, Default, PartialEq, Eq)]
pub struct Verdict {
    pub place: u64,
    pub number: u32,
    pub task: u32,
    pub depth: u32,
}

impl Verdict {
    /// A refusal whose place is one byte, length or block.
    pub fn at(number: u32, place: usize) -> Verdict {
        Verdict { place: place as u64, number, task: 0, depth: 0 }
    }

    /// A refusal whose place is task, block and depth.
    pub fn at_place(number: u32, place: Place) -> Verdict {
        Verdict { place: place.block as u64, number, task: place.task as u32, depth: place.depth as u32 }
    }
}

/// Document 01, "Walks": a place is task, block and depth.
#[derive(Clone, Copy, Debug, PartialEq, Eq)]
pub struct Place {
    pub task: usize,
    pub block: usize,
    pub depth: usize,
}

/// Document 01, "Running": a step hands out one motion request.
#[derive(Clone, Copy, Debug, PartialEq, Eq)]
pub enum Request {
    None,
    Move { kind: Move, position: i32, speed: u32, acceleration: u32, deceleration: u32 },
    Stop { mode: u32, deceleration: u32 },
}

/// The four moves, numbered as include/bias.h numbers motion requests.
#[derive(Clone, Copy, Debug, PartialEq, Eq)]
pub enum Move {
    To = 1,
    By = 2,
    Forward = 3,
    Backward = 4,
}

/// The number of a stop among motion requests.
pub const STOP: u32 = 5;

/// The answer of a step.
#[repr(C)]
#[derive(Clone, Copy, Debug, Default, PartialEq, Eq)]
pub struct Answer {
    pub place: u64,
    pub number: u32,
    pub task: u32,
    pub depth: u32,
    pub motion: u32,
    pub position: i32,
    pub speed: u32,
    pub acceleration: u32,
    pub deceleration: u32,
    pub mode: u32,
}

impl Answer {
    /// A refused or halting step hands out no motion request.
    pub fn refused(verdict: Verdict) -> Answer {
        Answer { place: verdict.place, number: verdict.number, task: verdict.task, depth: verdict.depth, ..Answer::default() }
    }

    /// A step that was carried out; fields that the request does not carry are 0.
    pub fn done(request: Request) -> Answer {
        let plain = Answer { number: SUCCESS, ..Answer::default() };
        match request {
            Request::None => plain,
            Request::Stop { mode, deceleration } => Answer { motion: STOP, mode, deceleration, ..plain },
            Request::Move { kind, position, speed, acceleration, deceleration } => {
                Answer { motion: kind as u32, position, speed, acceleration, deceleration, ..plain }
            }
        }
    }
}
