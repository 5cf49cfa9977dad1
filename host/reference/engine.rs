//! Step: document 01's refusals 15, 16, 18, 17 in this order, then the command, 19 and 20 and change request 1's 22
//! included.

use crate::answer::{Answer, Place, Request, Verdict};
use crate::effect::{perform, Effect, Onward, Turn};
use crate::image::{self, Block};
use crate::number::*;
use crate::state::{State, ENDED, HALTED, NO_WAIT, RUNNING};
use crate::{command, walk};

/// What the host gives with a step besides image, state and task.
#[derive(Clone, Copy)]
pub struct Given<'a> {
    pub inputs: &'a [u8],
    pub start: u8,
    pub ramp_ended: u8,
    pub in_window: u8,
}

/// Steps one task. A refused step changes nothing.
pub fn step(image: &[u8], state: &mut [u8], task: u32, given: Given) -> Answer {
    if task as usize >= TASKS {
        return Answer::refused(Verdict::at(BAD_INPUTS, task as usize));
    }
    if given.inputs.len() != INPUTS_LENGTH {
        return Answer::refused(Verdict::at(BAD_INPUTS, given.inputs.len()));
    }
    let Some(mut state) = State::of(state) else {
        return Answer::refused(Verdict::at(NO_STATE, 0));
    };
    let task = task as usize;
    if state.status(task) != RUNNING {
        return Answer::refused(Verdict::at(NOT_RUNNING, 0));
    }
    let place = Place { task, block: state.block(task) as usize, depth: state.depth(task) };
    match permitted(image, &state, place) {
        None => Answer::refused(Verdict::at_place(OTHER_IMAGE, place)),
        Some(block) => carry_out(&mut state, place, block, given),
    }
}

/// The block at the pointer, or none: 17, "lent image's header or length differs from the loaded one, or the block at
/// the pointer breaks 5 to 12 at the present depth, or a wait is pending there and it is neither 59 nor 5A". Change
/// request 3 has 23 in the place of 6: "a step gives 17 for either". Change request 1 has the landing list as part of
/// the header.
fn permitted<'a>(image: &'a [u8], state: &State, place: Place) -> Option<&'a Block> {
    let (header, blocks) = image::read(image).ok()?;
    if header != *state.header() {
        return None;
    }
    let block = image::block(blocks, place.block);
    let good = command::judge(&header, block) == SUCCESS
        && !walk::foreign(block, place.task)
        && walk::bad(&header, block, place) == SUCCESS
        && (state.wait(place.task) == NO_WAIT || matches!(block[0], 0x59 | 0x5A));
    good.then_some(block)
}

/// Does the command, or halts the task: "Both halt the task, record the start level for BIAS, and change nothing else."
/// So does 22, "doing to the task that executes it what they do" (change request 1).
fn carry_out(state: &mut State, place: Place, block: &Block, given: Given) -> Answer {
    let start = u8::from(given.start != 0);
    let turn = Turn {
        task: place.task,
        block,
        inputs: given.inputs,
        start,
        ramp_ended: given.ramp_ended != 0,
        in_window: given.in_window != 0,
    };
    let effect = perform(state, &turn);
    if place.task == BIAS {
        note(state, start, &effect);
    }
    match effect {
        Ok(effect) => {
            go_on(state, place.task, effect.onward);
            Answer::done(effect.request)
        }
        Err(number) => {
            state.set_status(place.task, HALTED);
            Answer::refused(Verdict::at_place(number, place))
        }
    }
}

/// What a BIAS step notes for the next one: the start level, and unless it halts whether it carried out a move. Change
/// request 4 asks about "the preceding BIAS step that was not refused": 19, 20 and 22 are refusals, which "change
/// nothing else" than task and level, so they leave the note of a move.
fn note(state: &mut State, start: u8, effect: &Result<Effect, u32>) {
    state.set_start_level(start);
    if let Ok(effect) = effect {
        state.set_moved(u8::from(matches!(effect.request, Request::Move { .. })));
    }
}

/// Moves the task on, and starts another one where the command says so.
fn go_on(state: &mut State, task: usize, onward: Onward) {
    let next = state.block(task) + 1;
    match onward {
        Onward::Stay => (),
        Onward::Next => state.set_block(task, next),
        Onward::To(block) => state.set_block(task, block),
        Onward::Call(block) => {
            state.push(task, next);
            state.set_block(task, block);
        }
        Onward::Return => {
            let back = state.pop(task);
            state.set_block(task, back);
        }
        Onward::Start(other, block) => {
            state.set_block(task, next);
            state.put_task(other, RUNNING, block);
            state.set_start(other, block);
        }
        Onward::Restart => state.put_task(task, RUNNING, state.start(task)),
        Onward::End => state.set_status(task, ENDED),
    }
}
