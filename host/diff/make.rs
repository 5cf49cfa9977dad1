//! Random cases: an image, then steps of mixed tasks, among them refused ones and hostile states.

use crate::case::{Action, Case, Player};
use crate::ends;
use crate::program;
use crate::random::Random;
use reference::image;
use reference::number::*;
use reference::state::{
    record, State, BLOCK, DEPTH, FLAGS, LAYOUT_AT, PATH, RECORD_LENGTH, RUNNING, STATE_LENGTH, STATUS, TIME, TURNS,
};

/// A case. Its steps are drawn while the reference does them, so that most are for tasks that run.
pub fn case(random: &mut Random) -> Case {
    let image = program::any(random);
    let (marks_len, state_len, fill) = (marks_len(random), state_len(random), random.byte());
    let mut state = vec![fill; state_len];
    let verdict = reference::load(&image, &mut vec![0; marks_len], &mut state);
    let steps = match random.below(100) {
        _ if verdict.number != SUCCESS => 2,
        0..=9 => random.between(0, 9),
        10..=89 => random.between(20, 250),
        _ => random.between(250, 1500),
    };
    let mut drawing = Drawing::new(random, image, state);
    let mut actions = Vec::new();
    while actions.len() < steps && drawing.alive() {
        actions.push(drawing.action());
    }
    Case { marks_len, state_len, fill, image: drawing.image, actions }
}

/// A load alone, of an image that is likely to be refused.
pub fn load(random: &mut Random) -> Case {
    let image = if random.chance(15) { program::headed(random) } else { program::changed(random) };
    Case { image, marks_len: MARKS_LENGTH, state_len: STATE_LENGTH, fill: random.byte(), actions: Vec::new() }
}

fn marks_len(random: &mut Random) -> usize {
    match random.below(60) {
        0 => random.pick(&[0, 1, MARKS_LENGTH - 1, MARKS_LENGTH / 2]),
        1..=3 => MARKS_LENGTH + random.between(1, 300),
        _ => MARKS_LENGTH,
    }
}

fn state_len(random: &mut Random) -> usize {
    if random.chance(1) { random.pick(&[0, 1, STATE_LENGTH - 1, STATE_LENGTH + 1, 2 * STATE_LENGTH]) } else { STATE_LENGTH }
}

/// Draws steps one after the other; levels change now and then.
struct Drawing<'a> {
    random: &'a mut Random,
    image: Vec<u8>,
    count: usize,
    player: Player,
    start: u8,
    ramp_ended: u8,
    in_window: u8,
    inputs: Vec<(u8, u8)>,
    /// Steps in a row that were refused.
    trouble: usize,
}

const HIGH: [u8; 5] = [1, 1, 2, 128, 255];
/// So many refused steps in a row end a case.
const ENOUGH: usize = 12;

impl Drawing<'_> {
    fn new(random: &mut Random, image: Vec<u8>, state: Vec<u8>) -> Drawing<'_> {
        let count = image::read(&image).map_or(1, |(header, _)| header.count);
        let start = random.pick(&[0, 1]);
        let player = Player { state };
        Drawing { random, image, count, player, start, ramp_ended: 0, in_window: 0, inputs: Vec::new(), trouble: 0 }
    }

    fn alive(&self) -> bool {
        self.trouble < ENOUGH
    }

    fn action(&mut self) -> Action {
        self.turn_levels();
        let mut action = Action::plain(self.task());
        action.inputs = self.inputs.clone();
        action.start = self.start;
        action.ramp_ended = self.ramp_ended;
        action.in_window = self.in_window;
        self.make_odd(&mut action);
        let played = self.player.play(&self.image, &action);
        self.trouble = if played.answer.number == SUCCESS { 0 } else { self.trouble + 1 };
        action
    }

    /// Mostly a task that runs.
    fn task(&mut self) -> u32 {
        if self.random.below(400) == 0 {
            return self.random.pick(&[3, 4, 255, 256, 1 << 31, u32::MAX]);
        }
        let any = self.random.below(TASKS) as u32;
        let Some(state) = State::of(&mut self.player.state) else {
            return any;
        };
        let running: Vec<u32> = (0..TASKS as u32).filter(|task| state.status(*task as usize) == RUNNING).collect();
        if running.is_empty() || self.random.chance(5) { any } else { self.random.pick(&running) }
    }

    /// Now and then a wrong length, another image, or bytes that somebody else wrote.
    fn make_odd(&mut self, action: &mut Action) {
        if self.trouble > 2 && self.random.chance(40) {
            action.pokes = self.revival(action.task);
            action.keep = true;
            return;
        }
        if let Some(bytes) = self.content_to_read(action.task) {
            action.pokes = bytes;
            action.keep = true;
            return;
        }
        match self.random.below(300) {
            0 => action.inputs_len = self.random.pick(&[0, 1, 255, 257, 512, 1000]),
            1 => action.state_len = self.random.pick(&[0, 1, STATE_LENGTH - 1, STATE_LENGTH + 1, 4096]),
            2..=3 => {
                let mut other = self.image.clone();
                program::damage(self.random, &mut other);
                action.lent = Some(other);
            }
            4..=5 => action.lent = self.pin_at_the_pointer(action.task),
            36..=40 => action.lent = program::relisted(self.random, &self.image),
            6..=35 => {
                action.pokes = pokes(self.random, self.count, &self.player.state);
                action.keep = self.random.chance(40);
            }
            _ => (),
        }
    }

    /// Where the block that the task stands at begins in the image.
    fn block_at(&mut self, task: usize) -> Option<usize> {
        let block = State::of(&mut self.player.state)?.block(task) as usize;
        let first = self.image.len().checked_sub(BLOCK_LENGTH * self.count.checked_sub(block)?)?;
        self.image.get(first..first + BLOCK_LENGTH).map(|_| first)
    }

    /// The image with another block where the task stands, one that uses a pin.
    fn pin_at_the_pointer(&mut self, task: u32) -> Option<Vec<u8>> {
        let first = self.block_at((task as usize).min(TASKS - 1))?;
        let mut other = self.image.clone();
        other[first..first + BLOCK_LENGTH].copy_from_slice(&program::pin_block(self.random));
        Some(other)
    }

    /// Now and then, what the task is about to read within a range is at an end of it.
    fn content_to_read(&mut self, task: u32) -> Option<Vec<(usize, u8)>> {
        let task = Some(task as usize).filter(|task| *task < TASKS)?;
        let first = self.block_at(task)?;
        let block = self.image[first..first + BLOCK_LENGTH].try_into().ok()?;
        let state = State::of(&mut self.player.state)?;
        let (variable, content) = ends::content_to_read(self.random, &state, task, &block)?;
        let mut bytes = Vec::new();
        put(&mut bytes, 4 * variable as usize, 4, content as u32);
        self.random.chance(30).then_some(bytes)
    }

    /// A task that runs at its start, or at some block.
    fn revival(&mut self, task: u32) -> Vec<(usize, u8)> {
        let mut bytes = Vec::new();
        let task = (task as usize).min(TASKS - 1);
        let start = State::of(&mut self.player.state).map_or(0, |state| state.start(task));
        let block = if self.random.chance(70) { start as usize } else { self.random.below(self.count) };
        let at = record(task);
        bytes.extend((at..at + RECORD_LENGTH).map(|at| (at, 0)));
        bytes.push((at + STATUS, RUNNING));
        put(&mut bytes, at + BLOCK, 2, block as u32);
        bytes
    }

    /// Each level by itself; now and then ramp ended and in window are both high, so that every 58 passes at last.
    fn turn_levels(&mut self) {
        if self.random.chance(30) {
            self.start = self.turned(self.start);
        }
        if self.random.chance(20) {
            self.ramp_ended = self.turned(self.ramp_ended);
        }
        if self.random.chance(20) {
            self.in_window = self.turned(self.in_window);
        }
        if self.random.chance(15) {
            self.ramp_ended = self.random.pick(&HIGH);
            self.in_window = self.random.pick(&HIGH);
        }
        if self.random.chance(20) {
            let pins = self.random.below(40);
            self.inputs = (0..pins).map(|_| (self.random.byte(), self.random.pick(&HIGH))).collect();
        }
    }

    fn turned(&mut self, level: u8) -> u8 {
        if level == 0 { self.random.pick(&HIGH) } else { 0 }
    }
}

/// What somebody else might write: one to three fields, mostly near the ends of their ranges.
fn pokes(random: &mut Random, count: usize, state: &[u8]) -> Vec<(usize, u8)> {
    let mut bytes = Vec::new();
    for _ in 0..random.between(1, 3) {
        match random.below(10) {
            0 => bytes.push((random.below(STATE_LENGTH), random.byte())),
            1 => bytes.push((FLAGS + random.below(LAYOUT_AT - FLAGS), random.below(3) as u8)),
            2 => {
                let variable = if random.chance(50) { random.below(8) } else { program::GOOD.start + random.below(4) };
                put(&mut bytes, 4 * variable, 4, ends::content(random) as u32);
            }
            3..=4 => bytes.extend(ends::field(random, state)),
            5 => poke_wait(random, &mut bytes),
            _ => poke_task(random, count, &mut bytes),
        }
    }
    bytes
}

fn put(bytes: &mut Vec<(usize, u8)>, at: usize, width: usize, value: u32) {
    bytes.extend(value.to_le_bytes().into_iter().take(width).enumerate().map(|(step, byte)| (at + step, byte)));
}

fn block_value(random: &mut Random, count: usize) -> u32 {
    let count = count as u32;
    random.pick(&[0, 1, count - 1, count, count + 1, 1499, 1500, 1501, 65535])
}

/// Status, depth, block and return entries of a task.
fn poke_task(random: &mut Random, count: usize, bytes: &mut Vec<(usize, u8)>) {
    let at = record(random.below(TASKS));
    let inside = random.below(count) as u32;
    let block = if random.chance(85) { inside } else { block_value(random, count) };
    match random.below(5) {
        0 => bytes.push((at + STATUS, random.pick(&[0, 1, 1, 2, 3, 4, 255]))),
        1..=2 => {
            bytes.push((at + STATUS, RUNNING));
            put(bytes, at + BLOCK, 2, block);
        }
        3 => {
            let depth = depth_value(random);
            bytes.push((at + DEPTH, depth as u8));
            for entry in 0..MOST_DEPTH {
                put(bytes, at + PATH + 2 * entry, 2, if entry < depth { block } else { 0 });
            }
        }
        _ => put(bytes, at + PATH + 2 * random.below(MOST_DEPTH), 2, block),
    }
}

/// A depth that is permitted, often the greatest, or one that is not, often the least such.
fn depth_value(random: &mut Random) -> usize {
    match random.below(6) {
        0 => MOST_DEPTH,
        1 => random.pick(&[MOST_DEPTH + 1, MOST_DEPTH + 1, 255]),
        _ => random.below(MOST_DEPTH),
    }
}

/// A pending wait near its end, by either cycle length, or out of range.
fn poke_wait(random: &mut Random, bytes: &mut Vec<(usize, u8)>) {
    let at = record(if random.chance(80) { BIAS } else { random.below(TASKS) });
    let time = random.pick(&[0, 1, 2, 3, 1000, 1899, 844, 65535, 65536, MOST_WAIT, MOST_WAIT + 1, u32::MAX]);
    let cycle = random.pick(&[1899, 844]);
    let due = (1000 * time as u64).div_ceil(cycle) as u32;
    let turns = random.pick(&[0, 1, due.wrapping_sub(2), due.wrapping_sub(1), due, due.wrapping_add(1), u32::MAX]);
    put(bytes, at + TIME, 4, time);
    put(bytes, at + TURNS, 4, turns);
}
