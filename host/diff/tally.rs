//! What a run has met: loads, steps and writes by number, commands carried out by code and where they went, what the
//! note of a move is for, jumps by a variable, and the ends of ranges.

use crate::case::{Action, Stood};
use crate::ends::Met;
use reference::command::codes;
use reference::number::*;
use reference::state::{State, ENDED, HALTED};
use reference::{Answer, Verdict};

/// Room for every number, and those that there are.
const NUMBERS: usize = BOARD_MISSING as usize + 1;

fn numbers() -> std::ops::RangeInclusive<u32> {
    SUCCESS..=BOARD_MISSING
}

/// Where a command that was carried out went on.
#[derive(Clone, Copy, Default)]
struct Ways {
    next: u64,
    elsewhere: u64,
    stayed: u64,
}

pub struct Tally {
    loads: [u64; NUMBERS],
    steps: [u64; NUMBERS],
    writes: [u64; NUMBERS],
    ways: [Ways; 256],
    tasks: [u64; TASKS],
    depths: [u64; MOST_DEPTH + 1],
    motions: [u64; 6],
    /// 58s that stayed by the note of a move alone, and BIAS steps right behind a move that halted.
    held_back: u64,
    halted_behind: u64,
    jumps: Jumps,
    ends: Met,
}

/// Change request 1: 56s that landed, by task and by depth; 5Bs by what BIAS was before; 22s by code and task; 17s by the
/// landing list alone.
#[derive(Default)]
struct Jumps {
    landed: [u64; TASKS],
    landed_deeper: u64,
    ended: u64,
    halted: u64,
    in_a_call: u64,
    waiting: u64,
    no_landing: [[u64; TASKS]; 2],
    no_list: u64,
    relisted: u64,
}

impl Jumps {
    fn step(&mut self, answer: &Answer, stood: Stood, task: usize) {
        let (status, depth, waiting) = stood.bias;
        match (stood.code, answer.number) {
            (0x56, SUCCESS) => {
                self.landed[task] += 1;
                self.landed_deeper += u64::from(task == BIAS && depth > 0);
            }
            (0x5B, SUCCESS) => {
                self.ended += u64::from(status == ENDED);
                self.halted += u64::from(status == HALTED);
                self.in_a_call += u64::from(depth > 0);
                self.waiting += u64::from(waiting);
            }
            (code, NO_LANDING) => {
                self.no_landing[usize::from(code == 0x5B)][task] += 1;
                self.no_list += u64::from(stood.header.format == FORMAT);
            }
            (_, OTHER_IMAGE) if stood.relisted => self.relisted += 1,
            _ => (),
        }
    }

    fn all(&self) -> [(u64, &'static str); 15] {
        let [by_56, by_5b] = self.no_landing;
        [
            (self.landed[BIAS], "56s of BIAS that landed"),
            (self.landed[PLC], "56s of the PLC that landed"),
            (self.landed[MATHEMATICS], "56s of mathematics that landed"),
            (self.landed_deeper, "56s of BIAS that landed inside a call"),
            (self.ended, "5Bs that started an ended BIAS"),
            (self.halted, "5Bs that started a halted BIAS"),
            (self.in_a_call, "5Bs that took BIAS out of a call"),
            (self.waiting, "5Bs that took BIAS out of a wait"),
            (by_56[BIAS], "22s of BIAS by 56"),
            (by_56[PLC], "22s of the PLC by 56"),
            (by_56[MATHEMATICS], "22s of mathematics by 56"),
            (by_5b[PLC], "22s of the PLC by 5B"),
            (by_5b[MATHEMATICS], "22s of mathematics by 5B"),
            (self.no_list, "22s in format 1"),
            (self.relisted, "17s by the landing list alone"),
        ]
    }
}

impl Tally {
    pub fn new() -> Tally {
        Tally {
            loads: [0; NUMBERS],
            steps: [0; NUMBERS],
            writes: [0; NUMBERS],
            ways: [Ways::default(); 256],
            tasks: [0; TASKS],
            depths: [0; MOST_DEPTH + 1],
            motions: [0; 6],
            held_back: 0,
            halted_behind: 0,
            jumps: Jumps::default(),
            ends: Met::default(),
        }
    }

    pub fn load(&mut self, image: &[u8], verdict: &Verdict) {
        self.loads[verdict.number as usize] += 1;
        self.ends.load(image, verdict);
    }

    pub fn write(&mut self, number: u32) {
        self.writes[number as usize] += 1;
    }

    pub fn steps_done(&self) -> u64 {
        self.steps.iter().sum()
    }

    /// `before` is where the task stood, `after` the state after the step.
    pub fn step(&mut self, answer: &Answer, before: Option<Stood>, after: &[u8], action: &Action) {
        self.steps[answer.number as usize] += 1;
        if let Some(stood) = before {
            self.note_of_a_move(answer, stood, action);
            self.jumps.step(answer, stood, action.task as usize);
            if let Some(content) = stood.content {
                self.ends.content(stood.code, content, &stood.header, answer.number);
            }
        }
        let (SUCCESS, Some(Stood { code, block, .. })) = (answer.number, before) else {
            return;
        };
        let mut after = after.to_vec();
        let Some(state) = State::of(&mut after) else {
            return;
        };
        let task = action.task as usize;
        self.tasks[task] += 1;
        self.depths[state.depth(task)] += 1;
        self.motions[answer.motion as usize] += 1;
        let ways = &mut self.ways[code as usize];
        match state.block(task) {
            now if now == block + 1 => ways.next += 1,
            now if now == block => ways.stayed += 1,
            _ => ways.elsewhere += 1,
        }
    }

    /// A step on a state that somebody else had written.
    pub fn poked(&mut self, lent: &[u8], answer: &Answer) {
        self.ends.state(lent, answer.number);
    }

    /// Change request 4: what a step was that the note of a move decides, or that leaves it.
    fn note_of_a_move(&mut self, answer: &Answer, stood: Stood, action: &Action) {
        let both = action.ramp_ended != 0 && action.in_window != 0;
        match answer.number {
            SUCCESS if stood.code == 0x58 && both && stood.moved => self.held_back += 1,
            ZERO_DIVISOR | BAD_CONTENT | NO_LANDING if action.task as usize == BIAS && stood.moved => self.halted_behind += 1,
            _ => (),
        }
    }

    /// Prints the whole; gives what was never met: codes, numbers, what the note of a move is for, jumps by a variable,
    /// ends of ranges.
    pub fn report(&self) -> Vec<String> {
        print_numbers("loads by number", &self.loads);
        print_numbers("writes by number", &self.writes);
        print_numbers("steps by number", &self.steps);
        print_numbers("steps carried out by task", &self.tasks);
        print_numbers("steps carried out by depth", &self.depths);
        print_numbers("motion requests by number", &self.motions);
        println!("commands carried out (went to the next block / elsewhere / stayed):");
        let cells: Vec<String> = codes().map(|code| self.cell(code)).collect();
        for line in cells.chunks(3) {
            println!("  {}", line.join("").trim_end());
        }
        println!("58s that stayed by the note of a move alone: {}", self.held_back);
        println!("halts of BIAS right behind a move: {}", self.halted_behind);
        for (count, what) in self.jumps.all() {
            println!("{what}: {count}");
        }
        let (ends, rarest, lost_ends) = self.ends.missing();
        println!("ends of ranges: {ends}, the rarest met {rarest} times");
        let (steps, images) = (self.steps_done(), self.loads.iter().sum::<u64>());
        println!("counted: {steps} steps, {images} images, {} of {ends} ends of ranges", ends - lost_ends.len());
        let mut missing = self.missing();
        missing.extend(lost_ends);
        missing
    }

    fn cell(&self, code: u8) -> String {
        let Ways { next, elsewhere, stayed } = self.ways[code as usize];
        format!("{code:02X} {:<34}", format!("{next} / {elsewhere} / {stayed}"))
    }

    fn missing(&self) -> Vec<String> {
        let never_done = |code: &u8| {
            let ways = self.ways[*code as usize];
            ways.next + ways.elsewhere + ways.stayed == 0
        };
        let never_met = |number: &u32| {
            let at = *number as usize;
            self.loads[at] + self.steps[at] + self.writes[at] == 0
        };
        let lost_codes = codes().filter(never_done).map(|code| format!("code {code:02X} never carried out"));
        let lost_numbers = numbers().filter(never_met).map(|number| format!("number {number} never met"));
        let notes = [
            (self.ways[0x58].next, "no 58 passed"),
            (self.held_back, "no 58 stayed by the note of a move alone"),
            (self.halted_behind, "no halt right behind a move"),
        ];
        let lost_notes = notes.into_iter().filter(|note| note.0 == 0).map(|note| note.1.to_string());
        let lost_jumps = self.jumps.all().into_iter().filter(|jump| jump.0 == 0).map(|jump| format!("no {}", jump.1));
        lost_codes.chain(lost_numbers).chain(lost_notes).chain(lost_jumps).collect()
    }
}

fn print_numbers(what: &str, numbers: &[u64]) {
    let met = numbers.iter().enumerate().filter(|(_, count)| **count > 0);
    let cells: Vec<String> = met.map(|(number, count)| format!("{number}: {count}")).collect();
    println!("{what}: {}", cells.join(", "));
}
