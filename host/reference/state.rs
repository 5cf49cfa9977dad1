//! The state: 2,048 bytes, worked on where they stand. Which bytes mean what, what load leaves, and what is no state
//! (16). The layout is the table of docs/STATE.md.

use crate::drive::{most_board, Drive, TYPE_637F};
use crate::image::{Header, Landings};
use crate::number::*;

pub const STATE_LENGTH: usize = 2048;

/// The layout number: each release raises it that moves a byte, so that a state that another one saved is never taken
/// for one of this. The first two layouts had none; where it stands they had the header's first byte, the format 1.
pub const LAYOUT: u8 = 5;

/// Where things stand, each behind the one before it.
const VARIABLES: usize = 0;
pub const FLAGS: usize = VARIABLES + 4 * 256;
const OUTPUTS: usize = FLAGS + 256;
pub const LAYOUT_AT: usize = OUTPUTS + 256;
pub const HEADER: usize = LAYOUT_AT + 1;
pub const START: usize = HEADER + 4;
pub const COUNT: usize = START + 2;
pub const LANDING_COUNT: usize = COUNT + 2;
pub const LANDINGS: usize = LANDING_COUNT + 1;
pub const POSITION: usize = LANDINGS + 2 * MOST_LANDINGS;
pub const SPEED: usize = POSITION + 4;
pub const ACCELERATION: usize = SPEED + 2;
pub const DECELERATION: usize = ACCELERATION + 2;
pub const START_MARK: usize = DECELERATION + 2;
pub const START_LEVEL: usize = START_MARK + 1;
pub const MOVED: usize = START_LEVEL + 1;
pub const STARTS: usize = MOVED + 1;
const RECORDS: usize = STARTS + 2 * (TASKS - 1);
pub const UNUSED: usize = RECORDS + TASKS * RECORD_LENGTH;

/// Where things stand in a task's record, and its length; the return path has two bytes for each depth.
pub const STATUS: usize = 0;
pub const DEPTH: usize = 1;
pub const BLOCK: usize = 2;
pub const PATH: usize = 4;
pub const TIME: usize = PATH + 2 * MOST_DEPTH;
pub const TURNS: usize = TIME + 4;
pub const RECORD_LENGTH: usize = TURNS + 4;

/// A task's status.
pub const NEVER_STARTED: u8 = 0;
pub const RUNNING: u8 = 1;
pub const ENDED: u8 = 2;
pub const HALTED: u8 = 3;

/// A pending wait: its time in ms, 0 for none, and its turns k.
#[derive(Clone, Copy, Debug, PartialEq, Eq)]
pub struct Wait {
    pub time: u32,
    pub turns: u32,
}

pub const NO_WAIT: Wait = Wait { time: 0, turns: 0 };

impl Wait {
    /// "the pointer passes when k × cycle length is at least 1000 × T".
    pub fn due(&self, drive: &Drive) -> bool {
        self.turns as u64 * drive.cycle_length() >= 1000 * self.time as u64
    }
}

/// A state where it stands.
pub struct State<'a> {
    bytes: &'a mut [u8; STATE_LENGTH],
    header: Header,
}

fn word(bytes: &[u8; STATE_LENGTH], at: usize) -> u16 {
    u16::from_le_bytes([bytes[at], bytes[at + 1]])
}

fn long(bytes: &[u8; STATE_LENGTH], at: usize) -> u32 {
    u32::from_le_bytes([bytes[at], bytes[at + 1], bytes[at + 2], bytes[at + 3]])
}

/// Where a task's record stands.
pub fn record(task: usize) -> usize {
    RECORDS + task * RECORD_LENGTH
}

/// All bytes put together by or: at most 1 exactly when each is 0 or 1, and 0 exactly when each is.
fn together(bytes: &[u8]) -> u8 {
    bytes.iter().fold(0, |all, byte| all | byte)
}

/// The layout number of this release, and no other.
fn layout_good(bytes: &[u8; STATE_LENGTH]) -> bool {
    bytes[LAYOUT_AT] == LAYOUT
}

/// "header not one that load accepts"; the landing list is part of it.
fn header_of(bytes: &[u8; STATE_LENGTH]) -> Option<Header> {
    let [format, kind, slot_b, slot_c] = [0, 1, 2, 3].map(|at| bytes[HEADER + at] as u32);
    let start = word(bytes, START) as usize;
    let count = word(bytes, COUNT) as usize;
    let board = most_board(kind);
    let good = (FORMAT..=FORMAT_LANDINGS).contains(&format)
        && kind <= TYPE_637F
        && slot_b <= board
        && slot_c <= board
        && (1..=MOST_BLOCKS).contains(&count)
        && start < count;
    let landings = landings_of(bytes, format, count)?;
    good.then_some(Header { format, drive: Drive { kind, slot_b, slot_c }, start, count, landings })
}

/// The landing list as load would judge it: "Format 1 means no landing blocks". Entries past the landing count are 0.
fn landings_of(bytes: &[u8; STATE_LENGTH], format: u32, count: usize) -> Option<Landings> {
    let number = bytes[LANDING_COUNT] as usize;
    if number > MOST_LANDINGS || format == FORMAT && number != 0 {
        return None;
    }
    let (listed, past) = bytes[LANDINGS..POSITION].split_at(2 * number);
    let mut list = Landings::NONE;
    for entry in listed.chunks_exact(2) {
        list.add(u16::from_le_bytes([entry[0], entry[1]]) as usize, count)?;
    }
    (together(past) == 0).then_some(list)
}

/// "a parameter, level, mark ... out of range, an unused byte not 0", and the start blocks below the count. The note of
/// a move (change request 4) is 0 or 1, as the start mark and the start level before it are.
fn values_good(bytes: &[u8; STATE_LENGTH], header: &Header) -> bool {
    together(&bytes[FLAGS..LAYOUT_AT]) <= 1
        && together(&bytes[START_MARK..STARTS]) <= 1
        && together(&bytes[UNUSED..]) == 0
        && (1..=MOST_SPEED).contains(&(word(bytes, SPEED) as u32))
        && (1..=MOST_RAMP).contains(&(word(bytes, ACCELERATION) as u32))
        && (1..=MOST_RAMP).contains(&(word(bytes, DECELERATION) as u32))
        && (word(bytes, STARTS) as usize) < header.count
        && (word(bytes, STARTS + 2) as usize) < header.count
}

/// "pointer, start or return block not below the count, depth above" the limit, "... task status out of range", return
/// entries past the depth not 0; the same for every task, whatever its status (ruling 16).
fn task_good(bytes: &[u8; STATE_LENGTH], header: &Header, task: usize) -> bool {
    let at = record(task);
    let depth = bytes[at + DEPTH] as usize;
    bytes[at + STATUS] <= HALTED
        && depth <= MOST_DEPTH
        && (word(bytes, at + BLOCK) as usize) < header.count
        && (0..depth).all(|entry| (word(bytes, at + PATH + 2 * entry) as usize) < header.count)
        && together(&bytes[at + PATH + 2 * depth..at + TIME]) == 0
        && wait_good(header, Wait { time: long(bytes, at + TIME), turns: long(bytes, at + TURNS) })
}

/// "a pending wait with T out of range or already due".
fn wait_good(header: &Header, wait: Wait) -> bool {
    wait == NO_WAIT || ((1..=MOST_WAIT).contains(&wait.time) && !wait.due(&header.drive))
}

impl<'a> State<'a> {
    /// The state in a stretch, or none: 16.
    pub fn of(bytes: &'a mut [u8]) -> Option<State<'a>> {
        let bytes: &mut [u8; STATE_LENGTH] = bytes.try_into().ok()?;
        let header = header_of(bytes)?;
        let good = layout_good(bytes)
            && values_good(bytes, &header)
            && (0..TASKS).all(|task| task_good(bytes, &header, task));
        good.then_some(State { bytes, header })
    }

    /// What load leaves (document 01, "Running"): BIAS at the program start, all else 0 or the least of its range, and
    /// the preceding start level high. The note of a move is 0 (change request 4: "With no move since load, both bits
    /// alone decide").
    pub fn fresh(bytes: &'a mut [u8; STATE_LENGTH], header: &Header) -> State<'a> {
        bytes.fill(0);
        bytes[LAYOUT_AT] = LAYOUT;
        bytes[HEADER] = header.format as u8;
        bytes[HEADER + 1] = header.drive.kind as u8;
        bytes[HEADER + 2] = header.drive.slot_b as u8;
        bytes[HEADER + 3] = header.drive.slot_c as u8;
        let mut state = State { bytes, header: *header };
        state.put_word(START, header.start as u16);
        state.put_word(COUNT, header.count as u16);
        state.put_landings(header.landings.blocks());
        state.set_speed(1);
        state.set_acceleration(1);
        state.set_deceleration(1);
        state.set_start_level(1);
        state.put_task(BIAS, RUNNING, header.start as u16);
        state
    }

    pub fn header(&self) -> &Header {
        &self.header
    }

    fn put_landings(&mut self, blocks: &[u16]) {
        self.bytes[LANDING_COUNT] = blocks.len() as u8;
        for (entry, block) in blocks.iter().enumerate() {
            self.put_word(LANDINGS + 2 * entry, *block);
        }
    }

    fn put_word(&mut self, at: usize, value: u16) {
        self.bytes[at..at + 2].copy_from_slice(&value.to_le_bytes());
    }

    fn put_long(&mut self, at: usize, value: u32) {
        self.bytes[at..at + 4].copy_from_slice(&value.to_le_bytes());
    }

    pub fn variable(&self, number: u8) -> i32 {
        long(self.bytes, VARIABLES + 4 * number as usize) as i32
    }

    pub fn set_variable(&mut self, number: u8, value: i32) {
        self.put_long(VARIABLES + 4 * number as usize, value as u32);
    }

    pub fn flag(&self, number: u8) -> u8 {
        self.bytes[FLAGS + number as usize]
    }

    pub fn set_flag(&mut self, number: u8, level: u8) {
        self.bytes[FLAGS + number as usize] = level;
    }

    pub fn output(&self, pin: u8) -> u8 {
        self.bytes[OUTPUTS + pin as usize]
    }

    pub fn set_output(&mut self, pin: u8, level: u8) {
        self.bytes[OUTPUTS + pin as usize] = level;
    }

    pub fn position(&self) -> i32 {
        long(self.bytes, POSITION) as i32
    }

    pub fn set_position(&mut self, value: i32) {
        self.put_long(POSITION, value as u32);
    }

    pub fn speed(&self) -> u16 {
        word(self.bytes, SPEED)
    }

    pub fn set_speed(&mut self, value: u16) {
        self.put_word(SPEED, value);
    }

    pub fn acceleration(&self) -> u16 {
        word(self.bytes, ACCELERATION)
    }

    pub fn set_acceleration(&mut self, value: u16) {
        self.put_word(ACCELERATION, value);
    }

    pub fn deceleration(&self) -> u16 {
        word(self.bytes, DECELERATION)
    }

    pub fn set_deceleration(&mut self, value: u16) {
        self.put_word(DECELERATION, value);
    }

    pub fn start_mark(&self) -> u8 {
        self.bytes[START_MARK]
    }

    pub fn set_start_mark(&mut self, level: u8) {
        self.bytes[START_MARK] = level;
    }

    /// The start input's level at the preceding BIAS step.
    pub fn start_level(&self) -> u8 {
        self.bytes[START_LEVEL]
    }

    pub fn set_start_level(&mut self, level: u8) {
        self.bytes[START_LEVEL] = level;
    }

    /// Whether the preceding BIAS step that was neither refused nor halted carried out a move, 0 or 1 (change request
    /// 4: "The state must remember whether that step was a start").
    pub fn moved(&self) -> u8 {
        self.bytes[MOVED]
    }

    pub fn set_moved(&mut self, note: u8) {
        self.bytes[MOVED] = note;
    }

    /// The block that a return to the task's start goes to; BIAS's is the program start.
    pub fn start(&self, task: usize) -> u16 {
        match task {
            BIAS => self.header.start as u16,
            _ => word(self.bytes, STARTS + 2 * (task - 1)),
        }
    }

    /// The block named by the latest 54 or 90; 57 and 5B leave BIAS's start alone (ruling 9).
    pub fn set_start(&mut self, task: usize, block: u16) {
        if task != BIAS {
            self.put_word(STARTS + 2 * (task - 1), block);
        }
    }

    pub fn status(&self, task: usize) -> u8 {
        self.bytes[record(task) + STATUS]
    }

    pub fn set_status(&mut self, task: usize, status: u8) {
        self.bytes[record(task) + STATUS] = status;
    }

    pub fn block(&self, task: usize) -> u16 {
        word(self.bytes, record(task) + BLOCK)
    }

    pub fn set_block(&mut self, task: usize, block: u16) {
        self.put_word(record(task) + BLOCK, block);
    }

    pub fn depth(&self, task: usize) -> usize {
        self.bytes[record(task) + DEPTH] as usize
    }

    /// 52: the block behind the call goes last on the task's own return path.
    pub fn push(&mut self, task: usize, block: u16) {
        let depth = self.depth(task);
        self.put_word(record(task) + PATH + 2 * depth, block);
        self.bytes[record(task) + DEPTH] = depth as u8 + 1;
    }

    /// 53: the last entry, taken off; what stands above the depth is 0.
    pub fn pop(&mut self, task: usize) -> u16 {
        let depth = self.depth(task) - 1;
        let entry = record(task) + PATH + 2 * depth;
        let block = word(self.bytes, entry);
        self.put_word(entry, 0);
        self.bytes[record(task) + DEPTH] = depth as u8;
        block
    }

    pub fn entry(&self, task: usize, number: usize) -> u16 {
        word(self.bytes, record(task) + PATH + 2 * number)
    }

    pub fn wait(&self, task: usize) -> Wait {
        let at = record(task);
        Wait { time: long(self.bytes, at + TIME), turns: long(self.bytes, at + TURNS) }
    }

    pub fn set_wait(&mut self, task: usize, wait: Wait) {
        let at = record(task);
        self.put_long(at + TIME, wait.time);
        self.put_long(at + TURNS, wait.turns);
    }

    /// A task with this status at this block, "with an empty return path and no pending wait".
    pub fn put_task(&mut self, task: usize, status: u8, block: u16) {
        let at = record(task);
        self.bytes[at..at + RECORD_LENGTH].fill(0);
        self.set_status(task, status);
        self.set_block(task, block);
    }
}
