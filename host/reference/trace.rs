//! The manual's examples run on the reference: reads lines of an image and records, prints a trace (docs/EXAMPLES.md).
//! A line is the image and records of nine bytes, both in hexadecimal digits, with a space between them.

use reference::answer::{Answer, STOP};
use reference::engine::Given;
use reference::hex::bytes_of;
use reference::image;
use reference::number::*;
use reference::state::{self, State, RUNNING, STATE_LENGTH};
use std::fmt::Write as _;
use std::io::{self, BufRead, Write as _};

/// Bytes of a record.
const RECORD_LENGTH: usize = 9;

/// One step of an example, to be done `times` times.
struct Step {
    times: usize,
    task: u32,
    start: u8,
    ramp_ended: u8,
    in_window: u8,
    inputs: [u8; INPUTS_LENGTH],
}

fn main() -> io::Result<()> {
    let mut out = String::new();
    for (number, line) in io::stdin().lock().lines().enumerate() {
        let _ = writeln!(out, "example {}", number + 1);
        example(&line?, &mut out);
    }
    io::stdout().write_all(out.as_bytes())
}

/// A record of steps: how often, the task, the start input, ramp ended, in window, and four inputs that are high (0:
/// none).
fn step_of(record: &[u8]) -> Step {
    let mut inputs = [0; INPUTS_LENGTH];
    for &pin in &record[5..] {
        inputs[pin as usize] = 1;
    }
    Step {
        times: record[0] as usize,
        task: record[1] as u32,
        start: record[2],
        ramp_ended: record[3],
        in_window: record[4],
        inputs,
    }
}

fn example(line: &str, out: &mut String) {
    let (image, steps) = line.split_once(' ').unwrap_or((line, ""));
    let image = bytes_of(image);
    let mut state = vec![0; STATE_LENGTH];
    let verdict = reference::load(&image, &mut vec![0; MARKS_LENGTH], &mut state);
    if verdict.number != SUCCESS {
        let _ = writeln!(out, "load {} place {} task {} depth {}", verdict.number, verdict.place, verdict.task, verdict.depth);
        return;
    }
    let _ = writeln!(out, "load 0");
    for record in bytes_of(steps).chunks_exact(RECORD_LENGTH) {
        if record[0] == 0 {
            put(&mut state, record);
        }
        let step = step_of(record);
        for _ in 0..step.times {
            traced(&image, &mut state, &step, out);
        }
    }
}

/// A record of no steps puts a byte into the state buffer: its place, low byte first, and the byte; none past the end.
/// The rest of the record is not looked at.
fn put(state: &mut [u8], record: &[u8]) {
    if let Some(byte) = state.get_mut(u16::from_le_bytes([record[1], record[2]]) as usize) {
        *byte = record[3];
    }
}

/// Does one step and prints its line: who, where, what changed, which request, which answer.
fn traced(image: &[u8], state: &mut [u8], step: &Step, out: &mut String) {
    let mut before = state.to_vec();
    let Step { start, ramp_ended, in_window, .. } = *step;
    let given = Given { inputs: &step.inputs, start, ramp_ended, in_window };
    let answer = reference::step(image, state, step.task, given);
    let head = fetched(image, &before, step.task);
    let unchanged = before == state;
    let changes = match (State::of(&mut before), State::of(state)) {
        (Some(old), Some(new)) => changes(&old, &new),
        _ => {
            assert!(unchanged, "a buffer that is no state was written");
            "nothing".to_string()
        }
    };
    let _ = writeln!(out, "task {}{head} : {changes} : {} : {}", step.task, request(&answer), place(&answer));
}

/// The block that the task's record names if its status says that it runs, in a buffer that is no state too; bytes past
/// the image's blocks are shown as 0.
fn fetched(image: &[u8], bytes: &[u8], task: u32) -> String {
    let task = task as usize;
    let record = state::record(task);
    if task >= TASKS || bytes[record + state::STATUS] != RUNNING {
        return String::new();
    }
    let Ok((_, blocks)) = image::read(image) else {
        return String::new();
    };
    let at = u16::from_le_bytes([bytes[record + state::BLOCK], bytes[record + state::BLOCK + 1]]) as usize;
    let block = blocks.iter().skip(BLOCK_LENGTH * at).chain(&[0; BLOCK_LENGTH]).take(BLOCK_LENGTH);
    let digits: Vec<String> = block.map(|byte| format!("{byte:02X}")).collect();
    format!(" block {at} code {}", digits.join(" "))
}

fn changes(old: &State, new: &State) -> String {
    let mut all = Vec::new();
    let mut note = |word: &str, was: i64, now: i64| {
        if was != now {
            all.push(format!("{word} = {now}"));
        }
    };
    for number in 0..=255 {
        note(&format!("variable {number}"), old.variable(number) as i64, new.variable(number) as i64);
    }
    for number in 0..=255 {
        note(&format!("flag {number}"), old.flag(number) as i64, new.flag(number) as i64);
    }
    for number in 0..=255 {
        note(&format!("output {number}"), old.output(number) as i64, new.output(number) as i64);
    }
    note("position", old.position() as i64, new.position() as i64);
    note("speed", old.speed() as i64, new.speed() as i64);
    note("acceleration", old.acceleration() as i64, new.acceleration() as i64);
    note("deceleration", old.deceleration() as i64, new.deceleration() as i64);
    note("mark", old.start_mark() as i64, new.start_mark() as i64);
    note("level", old.start_level() as i64, new.start_level() as i64);
    note("moved", old.moved() as i64, new.moved() as i64);
    for task in 1..TASKS {
        note(&format!("start of task {task}"), old.start(task) as i64, new.start(task) as i64);
    }
    all.extend((0..TASKS).filter_map(|task| task_change(old, new, task)));
    if all.is_empty() { "nothing".to_string() } else { all.join(", ") }
}

fn task_change(old: &State, new: &State, task: usize) -> Option<String> {
    let record = |state: &State| {
        let path: Vec<u16> = (0..MOST_DEPTH).map(|entry| state.entry(task, entry)).collect();
        (state.status(task), state.block(task), state.depth(task), path, state.wait(task))
    };
    if record(old) == record(new) {
        return None;
    }
    let wait = new.wait(task);
    let (block, depth, status) = (new.block(task), new.depth(task), new.status(task));
    Some(format!("task {task} at {block} depth {depth} status {status} wait {} {}", wait.time, wait.turns))
}

fn request(answer: &Answer) -> String {
    let word = match answer.motion {
        0 => return "none".to_string(),
        STOP => return format!("stop mode {} ramp {}", answer.mode, answer.deceleration),
        1 => "move to",
        2 => "move by",
        3 => "forward",
        _ => "backward",
    };
    format!("{word} {} {} {} {}", answer.position, answer.speed, answer.acceleration, answer.deceleration)
}

fn place(answer: &Answer) -> String {
    match answer.number {
        SUCCESS | NO_STATE | NOT_RUNNING => answer.number.to_string(),
        BAD_INPUTS => format!("15 place {}", answer.place),
        number => format!("{number} block {} task {} depth {}", answer.place, answer.task, answer.depth),
    }
}
