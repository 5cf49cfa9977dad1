//! What the 59 commands do to the values of the state, the motion request each hands out, and where each goes on
//! (the manual's chapter 4; document 01, "Running").

use crate::answer::{Move, Request};
use crate::command::{condition_of_81, long, row, word};
use crate::image::Block;
use crate::number::*;
use crate::state::{State, Wait, NO_WAIT};

/// What the host gives with a step, levels as 0 or 1, and the block that is carried out.
pub struct Turn<'a> {
    pub task: usize,
    pub block: &'a Block,
    pub inputs: &'a [u8],
    pub start: u8,
    pub ramp_ended: bool,
    pub in_window: bool,
}

/// Where the task goes on, or which task is started.
#[derive(Clone, Copy, Debug, PartialEq, Eq)]
pub enum Onward {
    Next,
    Stay,
    To(u16),
    Call(u16),
    Return,
    Start(usize, u16),
    Restart,
    End,
}

/// What a command comes to; an error is the number that halts the task (19, 20 or 22).
pub struct Effect {
    pub onward: Onward,
    pub request: Request,
}

type Outcome = Result<Onward, u32>;

/// Carries out a permitted command.
pub fn perform(state: &mut State, turn: &Turn) -> Result<Effect, u32> {
    let quiet = |onward: Outcome| Ok(Effect { onward: onward?, request: Request::None });
    match turn.block[0] {
        0x00..=0x1F => Ok(motion(state, turn)),
        0x20..=0x33 => quiet(parameter(state, turn.block)),
        0x40..=0x43 => quiet(Ok(parameter_read(state, turn.block))),
        0x58..=0x5A => quiet(wait(state, turn)),
        0x50..=0x57 | 0x5B | 0x90 => quiet(control(state, turn)),
        0x60..=0x6E => quiet(Ok(flag(state, turn))),
        0x70..=0x73 => quiet(Ok(pin(state, turn))),
        _ => quiet(variable(state, turn.block)),
    }
}

/// An input level; "anything but 0 is high".
fn input(turn: &Turn, pin: u8) -> u8 {
    u8::from(turn.inputs[pin as usize] != 0)
}

/// The block that the command names; only asked of commands that name one.
fn named(block: &Block) -> u16 {
    row(block[0]).and_then(|row| row.named(block)).unwrap_or(0)
}

/// A conditional jump.
fn jump_if(block: &Block, holds: bool) -> Onward {
    if holds { Onward::To(named(block)) } else { Onward::Next }
}

/// Conditions 0 and 1 of 61, 70, 71: equal, unequal.
fn levels_compare(condition: u8, level: u8, constant: u8) -> bool {
    (level == constant) == (condition == 0)
}

/// Conditions 0 to 7 of 81 and 89 (ruling 7).
fn values_compare(condition: u8, first: i32, second: i32) -> bool {
    match condition {
        0 => first > second,
        1 => first < second,
        2 => first == second,
        3 => first >= second,
        4 => first <= second,
        5 => first != second,
        6 => first.wrapping_sub(second) >= 0,
        _ => first.wrapping_sub(second) < 0,
    }
}

/// 50 to 57, 5B and 90.
fn control(state: &State, turn: &Turn) -> Outcome {
    let block = turn.block;
    Ok(match block[0] {
        0x51 if block[1] == 0 => Onward::Restart,
        0x51 => Onward::End,
        0x52 => Onward::Call(named(block)),
        0x53 => Onward::Return,
        0x54 => Onward::Start(PLC, named(block)),
        0x55 => Onward::To(named(block)),
        0x56 => Onward::To(landing(state, block)?),
        0x57 => Onward::Start(BIAS, named(block)),
        0x5B => Onward::Start(BIAS, landing(state, block)?),
        0x90 => Onward::Start(MATHEMATICS, named(block)),
        _ => Onward::Next,
    })
}

/// Change request 1: the landing block that the variable of 56 or 5B holds; "22 when the variable holds no landing
/// block".
fn landing(state: &State, block: &Block) -> Result<u16, u32> {
    let content = state.variable(block[1]);
    let held = state.header().landings.blocks().iter().find(|landing| **landing as i32 == content);
    held.copied().ok_or(NO_LANDING)
}

/// 58 to 5A.
fn wait(state: &mut State, turn: &Turn) -> Outcome {
    match turn.block[0] {
        0x58 if position_reached(state, turn) => Ok(Onward::Next),
        0x58 => Ok(Onward::Stay),
        _ => wait_time(state, turn),
    }
}

/// Change request 4, where document 01 has one bit: "The host now gives two bits, ramp ended and in window. 58 passes
/// when both are true and the preceding BIAS step that was not refused did not carry out a move."
fn position_reached(state: &State, turn: &Turn) -> bool {
    turn.ramp_ended && turn.in_window && state.moved() == 0
}

/// "A wait of T ms reads T at the step that first meets it, with k = 0; k grows by one at each later step of that task
/// on that block".
fn wait_time(state: &mut State, turn: &Turn) -> Outcome {
    let pending = state.wait(turn.task);
    let wait = match pending.time {
        0 => Wait { time: time_read(state, turn.block)?, turns: 0 },
        time => Wait { time, turns: pending.turns + 1 },
    };
    if wait.due(&state.header().drive) {
        state.set_wait(turn.task, NO_WAIT);
        Ok(Onward::Next)
    } else {
        state.set_wait(turn.task, wait);
        Ok(Onward::Stay)
    }
}

/// T in ms: 59 counts 2 ms (ruling 3); 5A takes 0 to 65535, rounded down to even on types 0 to 2 (ruling 4).
fn time_read(state: &State, block: &Block) -> Result<u32, u32> {
    if block[0] == 0x59 {
        return Ok(2 * word(block, 1) as u32);
    }
    let content = state.variable(block[1]);
    if !(0..=MOST_VARIABLE_WAIT).contains(&content) {
        return Err(BAD_CONTENT);
    }
    let time = content as u32;
    Ok(if state.header().drive.counts_in_two() { time - time % 2 } else { time })
}

/// 60 to 68 and 6E.
fn flag(state: &mut State, turn: &Turn) -> Onward {
    let block = turn.block;
    let [_, x, y, z, ..] = *block;
    let level = match block[0] {
        0x60 => y,
        0x61 => return jump_if(block, levels_compare(y, state.flag(x), z)),
        0x62 => state.flag(y),
        0x63 => input(turn, y),
        0x64 => state.output(y),
        0x65 => state.flag(y) & state.flag(z),
        0x66 => state.flag(y) | state.flag(z),
        0x67 => state.flag(y) ^ state.flag(z),
        0x68 => 1 - state.flag(y),
        _ => {
            let bit = (state.variable(x) >> y & 1) as u8;
            return jump_if(block, levels_compare(z, bit, 0));
        }
    };
    state.set_flag(x, level);
    Onward::Next
}

/// 70 to 73.
fn pin(state: &mut State, turn: &Turn) -> Onward {
    let block = turn.block;
    let [_, x, y, z, ..] = *block;
    match block[0] {
        0x70 => return jump_if(block, levels_compare(y, input(turn, x), z)),
        0x71 => return jump_if(block, levels_compare(y, state.output(x), z)),
        0x72 => state.set_output(x, y),
        _ => state.set_output(x, state.flag(y)),
    }
    Onward::Next
}

/// 80 to 8D: "sums, differences and products wrap, and a quotient is cut towards zero; −2^31 by −1 wraps".
fn variable(state: &mut State, block: &Block) -> Outcome {
    let [code, x, y, z, ..] = *block;
    let of = |number| state.variable(number);
    let value = match code {
        0x80 => long(block, 2),
        0x81 => return Ok(jump_if(block, values_compare(condition_of_81(block), of(x), long(block, 2)))),
        0x82 => of(y).wrapping_add(long(block, 3)),
        0x83 => of(y).wrapping_sub(long(block, 3)),
        0x84 => of(y).wrapping_mul(long(block, 3)),
        0x85 => of(y).wrapping_div(long(block, 3)),
        0x86 => flags_as_bits(state, y, z),
        0x88 => of(y),
        0x89 => return Ok(jump_if(block, values_compare(y, of(x), of(z)))),
        0x8A => of(y).wrapping_add(of(z)),
        0x8B => of(y).wrapping_sub(of(z)),
        0x8C => of(y).wrapping_mul(of(z)),
        _ if of(z) == 0 => return Err(ZERO_DIVISOR),
        _ => of(y).wrapping_div(of(z)),
    };
    state.set_variable(x, value);
    Ok(Onward::Next)
}

/// 86: the first flag is bit 0; bits that are not used are 0.
fn flags_as_bits(state: &State, first: u8, number: u8) -> i32 {
    let bits = (0..number).fold(0u32, |bits, at| bits | (state.flag(first + at) as u32) << at);
    bits as i32
}

/// 00, 01, 03, 04, 0E, 0F, 1F.
fn motion(state: &mut State, turn: &Turn) -> Effect {
    let block = turn.block;
    let kind = match block[0] {
        0x00 => Move::To,
        0x01 => Move::By,
        0x03 => Move::Forward,
        0x04 => Move::Backward,
        0x0E => {
            state.set_start_mark(1);
            return Effect { onward: Onward::Next, request: Request::None };
        }
        code => {
            let deceleration = if code == 0x0F { state.deceleration() } else { word(block, 2) };
            let request = Request::Stop { mode: block[1] as u32, deceleration: deceleration as u32 };
            return Effect { onward: Onward::Next, request };
        }
    };
    if !started(state, turn) {
        return Effect { onward: Onward::Stay, request: Request::None };
    }
    let request = Request::Move {
        kind,
        position: state.position(),
        speed: state.speed() as u32,
        acceleration: state.acceleration() as u32,
        deceleration: state.deceleration() as u32,
    };
    Effect { onward: Onward::Next, request }
}

/// "when the start mark of 0E stands, which it clears, or when the start input is high and was low at the preceding
/// BIAS step".
fn started(state: &mut State, turn: &Turn) -> bool {
    if state.start_mark() == 1 {
        state.set_start_mark(0);
        return true;
    }
    turn.start == 1 && state.start_level() == 0
}

/// 20 to 23 and 30 to 33.
fn parameter(state: &mut State, block: &Block) -> Outcome {
    let content = || state.variable(block[1]);
    match block[0] {
        0x20 => state.set_position(long(block, 1)),
        0x21 => state.set_speed(word(block, 1)),
        0x22 => state.set_acceleration(word(block, 1)),
        0x23 => state.set_deceleration(word(block, 1)),
        0x30 => state.set_position(content()),
        0x31 => state.set_speed(within(content(), MOST_SPEED)?),
        0x32 => state.set_acceleration(within(content(), MOST_RAMP)?),
        _ => state.set_deceleration(within(content(), MOST_RAMP)?),
    }
    Ok(Onward::Next)
}

/// 20: "variable's content outside the manual's range".
fn within(content: i32, most: u32) -> Result<u16, u32> {
    if content >= 1 && content as u32 <= most { Ok(content as u16) } else { Err(BAD_CONTENT) }
}

/// 40 to 43 (ruling 11).
fn parameter_read(state: &mut State, block: &Block) -> Onward {
    let value = match block[0] {
        0x40 => state.position(),
        0x41 => state.speed() as i32,
        0x42 => state.acceleration() as i32,
        _ => state.deceleration() as i32,
    };
    state.set_variable(block[1], value);
    Onward::Next
}
