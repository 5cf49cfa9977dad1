//! The ends of the ranges that the reference tests: contents of variables that a step reads (19, 20, 22), operands of a
//! block (7), fields of a state (16), numbers of a header and of its landing list (3, 21). Random values are drawn from
//! these lists, and a run counts of each end whether it was let pass where it is inside its range and refused, by
//! itself, where it is outside.

use crate::random::Random;
use reference::command::{self, row};
use reference::drive::{most_board, Drive, TYPE_637F};
use reference::image::{self, Block, Header};
use reference::number::*;
use reference::state::*;
use reference::Verdict;
use std::collections::BTreeMap;

/// Values just inside a range, which pass, and just outside it or at the ends of what can be written, which don't.
#[derive(Clone, Copy)]
struct Ends {
    inside: &'static [i64],
    outside: &'static [i64],
}

const fn ends(inside: &'static [i64], outside: &'static [i64]) -> Ends {
    Ends { inside, outside }
}

const LEAST: i64 = i32::MIN as i64;
const GREATEST: i64 = i32::MAX as i64;
const SPEED_ENDS: Ends = ends(&[1, MOST_SPEED as i64], &[0, MOST_SPEED as i64 + 1, u16::MAX as i64]);
const RAMP_ENDS: Ends = ends(&[1, MOST_RAMP as i64], &[0, MOST_RAMP as i64 + 1, u16::MAX as i64]);
const RAMP_CONTENTS: Ends = ends(&[1, MOST_RAMP as i64], &[0, MOST_RAMP as i64 + 1, -1, LEAST, GREATEST]);
const FORMAT_ENDS: Ends = ends(&[FORMAT as i64, FORMAT_LANDINGS as i64], &[FORMAT as i64 - 1, FORMAT_LANDINGS as i64 + 1]);
const TYPE_ENDS: Ends = ends(&[0, TYPE_637F as i64], &[TYPE_637F as i64 + 1]);
const COUNT_ENDS: Ends = ends(&[1, MOST_BLOCKS as i64], &[0, MOST_BLOCKS as i64 + 1]);
const WAIT_ENDS: Ends = ends(&[1, MOST_WAIT as i64], &[MOST_WAIT as i64 + 1]);
const DIVISOR_ENDS: Ends = ends(&[1, -1, LEAST, GREATEST], &[0]);
const CONDITION_ENDS: Ends = ends(&[0, 7], &[8]);
const LEVEL_ENDS: Ends = ends(&[0, 1], &[2]);
const ONLY_0: Ends = ends(&[0], &[1]);
/// The most landing blocks first: a list of one more is mended by them alone.
const LANDING_COUNT_ENDS: Ends = ends(&[MOST_LANDINGS as i64, 0], &[MOST_LANDINGS as i64 + 1]);
/// Of a landing block, told by how far it is above the one before it.
const ABOVE: Ends = ends(&[1], &[0, -1]);
/// Of what is told by how far it is above a limit that it stays below, or above the most that is allowed.
const BELOW: Ends = ends(&[-1], &[0]);
const AT_MOST: Ends = ends(&[0], &[1]);

impl Ends {
    fn any(&self, random: &mut Random) -> i64 {
        let at = random.below(self.inside.len() + self.outside.len());
        *self.inside.iter().chain(self.outside).nth(at).expect("an end")
    }
}

/// The commands that read a variable within a range, with the range of its content. 8D reads its divisor.
const CONTENTS: [(u8, Ends); 5] = [
    (0x31, ends(&[1, MOST_SPEED as i64], &[0, MOST_SPEED as i64 + 1, -1, LEAST, GREATEST])),
    (0x32, RAMP_CONTENTS),
    (0x33, RAMP_CONTENTS),
    (0x5A, ends(&[0, 1, MOST_VARIABLE_WAIT as i64], &[MOST_VARIABLE_WAIT as i64 + 1, -1, LEAST, GREATEST])),
    (0x8D, DIVISOR_ENDS),
];

/// A content at an end of some command's range.
pub fn content(random: &mut Random) -> i32 {
    random.pick(&CONTENTS).1.any(random) as i32
}

/// What a variable may hold that 56 or 5B reads, told by the header, and whether it is a landing block.
const AIMS: [(&str, fn(&Header) -> Option<i64>, bool); 10] = [
    ("first landing block", first_landing, true),
    ("last landing block", last_landing, true),
    ("block before the first landing block", before_first_landing, false),
    ("block behind the last landing block", |header| last_landing(header).map(|block| block + 1), false),
    ("65536 and a landing block", |header| first_landing(header).map(|block| 65536 + block), false),
    ("a landing block less 65536", |header| first_landing(header).map(|block| block - 65536), false),
    ("block count", |header| Some(header.count as i64), false),
    ("-1", |_| Some(-1), false),
    ("least number", |_| Some(LEAST), false),
    ("greatest number", |_| Some(GREATEST), false),
];
const AIMING: [u8; 2] = [0x56, 0x5B];

fn first_landing(header: &Header) -> Option<i64> {
    header.landings.blocks().first().map(|block| *block as i64)
}

fn before_first_landing(header: &Header) -> Option<i64> {
    first_landing(header).filter(|first| *first > 0).map(|first| first - 1)
}

fn last_landing(header: &Header) -> Option<i64> {
    header.landings.blocks().last().map(|block| *block as i64)
}

/// A content for 56 or 5B: this often in a hundred a landing block, if there are some.
pub fn aim(random: &mut Random, header: &Header, listed: usize) -> i32 {
    let landings = header.landings.blocks();
    if !landings.is_empty() && random.chance(listed) {
        return random.pick(landings) as i32;
    }
    let all: Vec<i64> = AIMS.iter().filter_map(|(_, content, _)| content(header)).collect();
    random.pick(&all) as i32
}

/// The variable that a command is about to read within a range.
fn variable_read(state: &State, task: usize, block: &Block) -> Option<u8> {
    match block[0] {
        0x31..=0x33 | 0x56 | 0x5B => Some(block[1]),
        0x5A if state.wait(task) == NO_WAIT => Some(block[1]),
        0x8D => Some(block[3]),
        _ => None,
    }
}

/// What that variable holds.
pub fn content_read(state: &State, task: usize, block: &Block) -> Option<i32> {
    variable_read(state, task, block).map(|variable| state.variable(variable))
}

/// That variable, and a content at an end of the command's own range.
pub fn content_to_read(random: &mut Random, state: &State, task: usize, block: &Block) -> Option<(u8, i32)> {
    let variable = variable_read(state, task, block)?;
    if AIMING.contains(&block[0]) {
        return Some((variable, aim(random, state.header(), 40)));
    }
    let (_, ends) = CONTENTS.iter().find(|of| of.0 == block[0])?;
    Some((variable, ends.any(random) as i32))
}

/// Where an operand stands in a block.
#[derive(Clone, Copy)]
enum At {
    Byte(usize),
    Word(usize),
    Long(usize),
    /// The upper half of D6 of 81.
    UpperHalf,
    /// The flag behind the last one of 86.
    BehindFlags,
    /// The block that is named, told by how far it is above the count.
    Address,
}

const NAMING: [u8; 11] = [0x52, 0x54, 0x55, 0x57, 0x61, 0x6E, 0x70, 0x71, 0x81, 0x89, 0x90];

const OPERANDS: [(&str, &[u8], At, Ends); 19] = [
    ("axis", &[0x00, 0x01, 0x03, 0x04], At::Byte(1), ONLY_0),
    ("target", &[0x00, 0x01, 0x03, 0x04], At::Byte(2), ONLY_0),
    ("mode", &[0x0F, 0x1F], At::Byte(1), LEVEL_ENDS),
    ("axis of a stop", &[0x0F], At::Byte(2), ONLY_0),
    ("ramp of a stop", &[0x1F], At::Word(2), RAMP_ENDS),
    ("speed", &[0x21], At::Word(1), SPEED_ENDS),
    ("ramp", &[0x22, 0x23], At::Word(1), RAMP_ENDS),
    ("task to end", &[0x51], At::Byte(1), ends(&[0, TASKS as i64], &[TASKS as i64 + 1])),
    ("level", &[0x60, 0x72], At::Byte(2), LEVEL_ENDS),
    ("condition of levels", &[0x61, 0x70, 0x71], At::Byte(2), LEVEL_ENDS),
    ("level compared", &[0x61, 0x70, 0x71], At::Byte(3), LEVEL_ENDS),
    ("bit", &[0x6E], At::Byte(2), ends(&[0, 31], &[32])),
    ("condition of a bit", &[0x6E], At::Byte(3), LEVEL_ENDS),
    ("condition", &[0x81], At::UpperHalf, CONDITION_ENDS),
    ("condition", &[0x89], At::Byte(2), CONDITION_ENDS),
    ("divisor", &[0x85], At::Long(3), DIVISOR_ENDS),
    ("flags", &[0x86], At::Byte(3), ends(&[1, 32], &[0, 33])),
    ("flag behind the last", &[0x86], At::BehindFlags, ends(&[256], &[257])),
    ("address", &NAMING, At::Address, BELOW),
];

impl At {
    fn read(self, block: &Block, count: usize) -> i64 {
        match self {
            At::Byte(at) => block[at] as i64,
            At::Word(at) => command::word(block, at) as i64,
            At::Long(at) => command::long(block, at) as i64,
            At::UpperHalf => (block[6] >> 4) as i64,
            At::BehindFlags => block[2] as i64 + block[3] as i64,
            At::Address => row(block[0]).and_then(|row| row.named(block)).unwrap_or(0) as i64 - count as i64,
        }
    }

    fn write(self, block: &mut Block, count: usize, value: i64) {
        match self {
            At::Byte(at) => block[at] = value as u8,
            At::Word(at) => block[at..at + 2].copy_from_slice(&(value as u16).to_le_bytes()),
            At::Long(at) => block[at..at + 4].copy_from_slice(&(value as i32).to_le_bytes()),
            At::UpperHalf => block[6] = (block[6] & 0x0F) | (value as u8) << 4,
            At::BehindFlags => block[2] = (value - block[3] as i64) as u8,
            At::Address => put_address(block, (count as i64 + value) as u16),
        }
    }
}

/// Puts the address of a command that names a block.
pub fn put_address(block: &mut Block, address: u16) {
    let [low, high] = address.to_le_bytes();
    match block[0] {
        0x81 => (block[6], block[7]) = ((block[6] & 0xF0) | high, low),
        0x52 | 0x54 | 0x55 | 0x57 | 0x90 => block[1..3].copy_from_slice(&[low, high]),
        _ => block[4..6].copy_from_slice(&[low, high]),
    }
}

/// An operand at an end, to be put into a block of its command.
pub struct Drawn {
    pub code: u8,
    at: At,
    value: i64,
}

/// Every operand of every command is as likely.
pub fn operand(random: &mut Random) -> Drawn {
    let of_row = |(_, codes, at, ends): &(_, &'static [u8], At, Ends)| {
        let (at, ends) = (*at, *ends);
        codes.iter().map(move |code| (*code, at, ends))
    };
    let all: Vec<(u8, At, Ends)> = OPERANDS.iter().flat_map(of_row).collect();
    let (code, at, ends) = random.pick(&all);
    Drawn { code, at, value: ends.any(random) }
}

impl Drawn {
    pub fn put(&self, mut block: Block, count: usize) -> Block {
        self.at.write(&mut block, count, self.value);
        block
    }
}

/// Where a number stands in a state, how many bytes it has, and what its value is told from.
type Place = (usize, usize, i64);

/// The kinds of numbers in a state, where they stand in one, and their ranges.
const FIELDS: [(&str, fn(&[u8]) -> Vec<Place>, Ends); 28] = [
    ("layout number", |_| vec![(LAYOUT_AT, 1, 0)], ends(&[LAYOUT as i64], &[LAYOUT as i64 - 1, LAYOUT as i64 + 1])),
    ("format", |_| vec![(HEADER, 1, 0)], FORMAT_ENDS),
    ("type", |_| vec![(HEADER + 1, 1, 0)], TYPE_ENDS),
    ("slot B", |state| vec![(HEADER + 2, 1, board(state))], AT_MOST),
    ("slot C", |state| vec![(HEADER + 3, 1, board(state))], AT_MOST),
    ("program start", |state| vec![(START, 2, count(state))], BELOW),
    ("block count", |_| vec![(COUNT, 2, 0)], COUNT_ENDS),
    ("landing count", |_| vec![(LANDING_COUNT, 1, 0)], LANDING_COUNT_ENDS),
    ("landing count of format 1", landing_count_of_1, ONLY_0),
    ("last landing block", |state| landing(listed(state), count(state)), BELOW),
    ("landing block beside the one before", beside, ABOVE),
    ("landing entry past the count", past_the_list, ends(&[0], &[1, 256])),
    ("flag", |_| vec![(FLAGS, 1, 0), (FLAGS + 255, 1, 0)], LEVEL_ENDS),
    ("output", |_| vec![(FLAGS + 256, 1, 0), (LAYOUT_AT - 1, 1, 0)], LEVEL_ENDS),
    ("stored speed", |_| vec![(SPEED, 2, 0)], SPEED_ENDS),
    ("stored ramp", |_| vec![(ACCELERATION, 2, 0), (DECELERATION, 2, 0)], RAMP_ENDS),
    ("start mark", |_| vec![(START_MARK, 1, 0)], LEVEL_ENDS),
    ("start level", |_| vec![(START_LEVEL, 1, 0)], LEVEL_ENDS),
    ("note of a move", |_| vec![(MOVED, 1, 0)], LEVEL_ENDS),
    ("task's start", |state| vec![(STARTS, 2, count(state)), (STARTS + 2, 2, count(state))], BELOW),
    ("unused byte", |_| vec![(UNUSED, 1, 0), (STATE_LENGTH - 1, 1, 0)], ONLY_0),
    ("status", |_| in_tasks(|at| Some((at + STATUS, 1, 0))), ends(&[0, HALTED as i64], &[HALTED as i64 + 1])),
    ("depth", |_| in_tasks(|at| Some((at + DEPTH, 1, MOST_DEPTH as i64))), AT_MOST),
    ("block", |state| in_tasks(|at| Some((at + BLOCK, 2, count(state)))), BELOW),
    ("entry under the depth", |state| in_tasks(|at| entry(state, at, false)), BELOW),
    ("entry past the depth", |state| in_tasks(|at| entry(state, at, true)), ONLY_0),
    ("time of a wait", |_| in_tasks(|at| Some((at + TIME, 4, 0))), WAIT_ENDS),
    ("turns of a wait", |state| in_tasks(|at| turns(state, at)), BELOW),
];

fn number(state: &[u8], at: usize, width: usize) -> i64 {
    state[at..at + width].iter().rev().fold(0, |value, byte| 256 * value + *byte as i64)
}

fn count(state: &[u8]) -> i64 {
    number(state, COUNT, 2)
}

fn board(state: &[u8]) -> i64 {
    most_board(state[HEADER + 1] as u32) as i64
}

fn listed(state: &[u8]) -> usize {
    state[LANDING_COUNT] as usize
}

/// The landing count, where the format has none.
fn landing_count_of_1(state: &[u8]) -> Vec<Place> {
    if state[HEADER] as u32 == FORMAT { vec![(LANDING_COUNT, 1, 0)] } else { Vec::new() }
}

/// An entry of the landing list, counted from 1; none past its room.
fn landing(number: usize, base: i64) -> Vec<Place> {
    if (1..=MOST_LANDINGS).contains(&number) { vec![(LANDINGS + 2 * (number - 1), 2, base)] } else { Vec::new() }
}

/// The second landing block and the last, told from the ones before them.
fn beside(state: &[u8]) -> Vec<Place> {
    let inside = 2..=listed(state).min(MOST_LANDINGS);
    let before = |number: usize| self::number(state, LANDINGS + 2 * (number - 2), 2);
    let numbers = [2, listed(state)].into_iter().filter(|number| inside.contains(number));
    numbers.flat_map(|number| landing(number, before(number))).collect()
}

/// The first entry past the landing count, and the last of all.
fn past_the_list(state: &[u8]) -> Vec<Place> {
    let numbers = [listed(state) + 1, MOST_LANDINGS].into_iter().filter(|number| listed(state) < *number);
    numbers.flat_map(|number| landing(number, 0)).collect()
}

fn in_tasks(place: impl Fn(usize) -> Option<Place>) -> Vec<Place> {
    (0..TASKS).filter_map(|task| place(record(task))).collect()
}

/// The last entry under a task's depth, or the first past it.
fn entry(state: &[u8], at: usize, past: bool) -> Option<Place> {
    let depth = state[at + DEPTH] as usize;
    match past {
        true => (depth < MOST_DEPTH).then_some((at + PATH + 2 * depth, 2, 0)),
        false => (1..=MOST_DEPTH).contains(&depth).then(|| (at + PATH + 2 * (depth - 1), 2, count(state))),
    }
}

/// The turns of a wait, told by how far they are above those at which it is over.
fn turns(state: &[u8], at: usize) -> Option<Place> {
    let time = number(state, at + TIME, 4);
    let drive = Drive { kind: state[HEADER + 1] as u32, slot_b: 0, slot_c: 0 };
    let over = (1000 * time as u64).div_ceil(drive.cycle_length());
    (1..=MOST_WAIT as i64).contains(&time).then_some((at + TURNS, 4, over as i64))
}

fn put(state: &mut [u8], (at, width, base): Place, value: i64) {
    state[at..at + width].copy_from_slice(&(base + value).to_le_bytes()[..width]);
}

/// Bytes to write into a state so that one of its numbers is at an end.
pub fn field(random: &mut Random, state: &[u8]) -> Vec<(usize, u8)> {
    let (_, places, ends) = random.pick(&FIELDS);
    let places = if state.len() == STATE_LENGTH { places(state) } else { Vec::new() };
    if places.is_empty() {
        return Vec::new();
    }
    let (at, width, base) = random.pick(&places);
    let bytes = (base + ends.any(random)).to_le_bytes();
    (0..width).map(|step| (at + step, bytes[step])).collect()
}

/// Where a number stands in a header, counted in numbers, and what its value is told from.
type Number = (usize, i64);

/// The numbers of a header: format, type, slot B, slot C, start, count, and in format 2 the landing count and the last
/// landing block; where each stands, and its range.
const NUMBERS: [(&str, fn(&[usize]) -> Vec<Number>, Ends); 9] = [
    ("format of an image", |_| vec![(0, 0)], FORMAT_ENDS),
    ("type of an image", |_| vec![(1, 0)], TYPE_ENDS),
    ("slot B of an image", |numbers| vec![(2, most_board(numbers[1] as u32) as i64)], AT_MOST),
    ("slot C of an image", |numbers| vec![(3, most_board(numbers[1] as u32) as i64)], AT_MOST),
    ("start of an image", |numbers| vec![(4, numbers[5] as i64)], BELOW),
    ("count of an image", |_| vec![(5, 0)], COUNT_ENDS),
    ("landing count of an image", |numbers| last_from(numbers, LISTED_AT, &[(LISTED_AT, 0)]), LANDING_COUNT_ENDS),
    ("last landing block of an image", |numbers| {
        last_from(numbers, LISTED_AT + 1, &[(numbers.len() - 1, numbers[5] as i64)])
    }, BELOW),
    ("landing block of an image beside the one before", |numbers| {
        last_from(numbers, LISTED_AT + 2, &[(numbers.len() - 1, numbers[numbers.len() - 2] as i64)])
    }, ABOVE),
];
/// Where the landing count stands.
const LISTED_AT: usize = 6;

/// These, if a header has a number at that place.
fn last_from(numbers: &[usize], at: usize, these: &[Number]) -> Vec<Number> {
    if numbers.len() > at { these.to_vec() } else { Vec::new() }
}

/// The numbers at the front of an image, the byte where each stands, and the first byte behind them.
#[derive(Default)]
struct Front {
    values: Vec<usize>,
    places: Vec<usize>,
    behind: usize,
}

/// How many numbers a header has, as far as its first ones tell; a landing list that is too long is not looked at.
fn due(values: &[usize]) -> usize {
    let list = |number: &usize| if *number <= MOST_LANDINGS { *number } else { 0 };
    match values.first() {
        Some(format) if *format == FORMAT_LANDINGS as usize => LISTED_AT + 1 + values.get(LISTED_AT).map_or(0, list),
        _ => LISTED_AT,
    }
}

fn front(image: &[u8]) -> Option<Front> {
    let mut front = Front::default();
    while front.values.len() < due(&front.values) {
        let read = image::read_number(image, front.behind).ok()?;
        front.values.push(read.value);
        front.places.push(front.behind);
        front.behind = read.behind;
    }
    Some(front)
}

/// The image with one number of its header at an end, the blocks as they are. With another landing count the list is
/// shorter, or longer by the blocks behind its last one.
pub fn header(random: &mut Random, image: &[u8]) -> Vec<u8> {
    let Some(Front { mut values, behind, .. }) = front(image) else {
        return image.to_vec();
    };
    let all: Vec<(Number, Ends)> =
        NUMBERS.iter().flat_map(|(_, places, ends)| places(&values).into_iter().map(move |place| (place, *ends))).collect();
    let ((at, base), ends) = random.pick(&all);
    values[at] = (base + ends.any(random)) as usize;
    if at == LISTED_AT {
        let next = values.get(LISTED_AT + 1..).and_then(|list| list.last()).map_or(0, |last| last + 1);
        let list = values.len() - (LISTED_AT + 1);
        values.extend((next..).take(values[at].saturating_sub(list)));
        values.truncate(LISTED_AT + 1 + values[at]);
    }
    let mut changed = Vec::new();
    for value in values {
        match value {
            0..=127 => changed.push(value as u8),
            _ => changed.extend([128 + (value % 128) as u8, (value / 128) as u8]),
        }
    }
    changed.extend_from_slice(&image[behind..]);
    changed
}

/// One end: what has it, of which command if of one, its value, and whether it is inside its range.
type End = (&'static str, Option<u8>, i64, bool);

/// How often each end was met where it counts.
#[derive(Default)]
pub struct Met(BTreeMap<End, u64>);

impl Met {
    /// An end that passed, or that alone was refused.
    fn meet(&mut self, what: &'static str, code: Option<u8>, ends: Ends, value: i64, passed: bool) {
        let values = if passed { ends.inside } else { ends.outside };
        if values.contains(&value) {
            *self.0.entry((what, code, value, passed)).or_default() += 1;
        }
    }

    /// A step whose command read this content, in a program of this header.
    pub fn content(&mut self, code: u8, content: i32, header: &Header, number: u32) {
        let passed = match number {
            SUCCESS => true,
            BAD_CONTENT | ZERO_DIVISOR | NO_LANDING => false,
            _ => return,
        };
        for (what, aim, inside) in AIMS.into_iter().filter(|_| AIMING.contains(&code)) {
            if aim(header) == Some(content as i64) && inside == passed {
                *self.0.entry((what, Some(code), 0, passed)).or_default() += 1;
            }
        }
        if let Some((_, ends)) = CONTENTS.iter().find(|of| of.0 == code) {
            self.meet("content", Some(code), *ends, content as i64, passed);
        }
    }

    /// A step on a state that somebody else wrote: past 16, or refused by it.
    pub fn state(&mut self, state: &[u8], number: u32) {
        if state.len() != STATE_LENGTH || number == BAD_INPUTS {
            return;
        }
        let passed = number != NO_STATE;
        for (what, places, ends) in FIELDS {
            for place in places(state) {
                let value = self::number(state, place.0, place.1) - place.2;
                if passed || mended(state, |state| put(state, place, ends.inside[0])) {
                    self.meet(what, None, ends, value, passed);
                }
            }
        }
    }

    /// A load that was not refused for what was lent with the image.
    pub fn load(&mut self, image: &[u8], verdict: &Verdict) {
        if matches!(verdict.number, MARKS_SHORT | NO_STATE) {
            return;
        }
        if let Some(Front { values, places, .. }) = front(image) {
            let read = image::read_header(image).is_ok();
            let refused = matches!(verdict.number, BAD_HEADER | BAD_LANDINGS);
            for (what, numbers, ends) in NUMBERS {
                for (at, base) in numbers(&values) {
                    if read || refused && verdict.place == places[at] as u64 {
                        self.meet(what, None, ends, values[at] as i64 - base, read);
                    }
                }
            }
        }
        if let Ok((header, blocks)) = image::read(image) {
            self.blocks(&header, blocks, verdict);
        }
    }

    /// The blocks that passed by themselves, and the one that was refused by 7.
    fn blocks(&mut self, header: &Header, blocks: &[u8], verdict: &Verdict) {
        let refused = match verdict.number {
            BAD_CODE | NOT_ON_DRIVE | BAD_OPERAND | UNUSED_NOT_ZERO | BOARD_MISSING => verdict.place as usize,
            _ => header.count,
        };
        for number in 0..header.count.min(refused + 1) {
            let block = image::block(blocks, number);
            let passed = number < refused;
            if passed || verdict.number == BAD_OPERAND {
                self.block(header, block, passed);
            }
        }
    }

    fn block(&mut self, header: &Header, block: &Block, passed: bool) {
        for (what, codes, at, ends) in OPERANDS {
            if !codes.contains(&block[0]) {
                continue;
            }
            let mut other = *block;
            at.write(&mut other, header.count, ends.inside[0]);
            if passed || command::judge(header, &other) == SUCCESS {
                self.meet(what, Some(block[0]), ends, at.read(block, header.count), passed);
            }
        }
    }

    /// How many ends there are, how often the rarest was met, and those that never were.
    pub fn missing(&self) -> (usize, u64, Vec<String>) {
        let all = every_end();
        let times = |end: &End| self.0.get(end).copied().unwrap_or(0);
        let rarest = all.iter().map(times).min().unwrap_or(0);
        (all.len(), rarest, all.iter().filter(|end| times(end) == 0).map(in_words).collect())
    }
}

/// Whether a state is one once somebody mends it.
fn mended(state: &[u8], mend: impl FnOnce(&mut [u8])) -> bool {
    let mut state = state.to_vec();
    mend(&mut state);
    State::of(&mut state).is_some()
}

fn every_end() -> Vec<End> {
    let mut all = Vec::new();
    let mut add = |what: &'static str, code: Option<u8>, ends: Ends| {
        all.extend(ends.inside.iter().map(|value| (what, code, *value, true)));
        all.extend(ends.outside.iter().map(|value| (what, code, *value, false)));
    };
    CONTENTS.iter().for_each(|(code, ends)| add("content", Some(*code), *ends));
    for (what, _, inside) in AIMS {
        let one = if inside { ends(&[0], &[]) } else { ends(&[], &[0]) };
        AIMING.iter().for_each(|code| add(what, Some(*code), one));
    }
    OPERANDS.iter().for_each(|(what, codes, _, ends)| codes.iter().for_each(|code| add(what, Some(*code), *ends)));
    FIELDS.iter().for_each(|(what, _, ends)| add(what, None, *ends));
    NUMBERS.iter().for_each(|(what, _, ends)| add(what, None, *ends));
    all
}

fn in_words((what, code, value, inside): &End) -> String {
    let code = code.map_or(String::new(), |code| format!(" of {code:02X}"));
    format!("{what}{code} {value} never {}", if *inside { "passed" } else { "refused" })
}
