//! Random images: programs grown until they are accepted, damaged ones, and noise.

use crate::ends;
use crate::random::Random;
use reference::command::{codes, row};
use reference::drive::{most_board, Drive, Presence, TYPE_637F};
use reference::image::{self, Block, Header, Landings, Wanted};
use reference::number::*;
use reference::state::STATE_LENGTH;

/// The image of a case. Most are accepted; the rest are damaged in one way or another.
pub fn any(random: &mut Random) -> Vec<u8> {
    match random.below(100) {
        0..=64 => accepted(random),
        65..=69 => wild(random),
        70..=84 => changed(random),
        85..=94 => {
            let mut image = accepted(random);
            damage(random, &mut image);
            image
        }
        _ => noise(random),
    }
}

/// An accepted program in which a few blocks are others, or have other bytes: refused by 5 to 12 or 23, if at all.
pub fn changed(random: &mut Random) -> Vec<u8> {
    let mut maker = Maker::new(random);
    let (start, mut blocks) = maker.program();
    maker.mend(start, &mut blocks);
    for _ in 0..maker.random.between(1, 3) {
        let at = maker.random.below(maker.count);
        maker.change(&mut blocks, at);
    }
    maker.image(start, &blocks)
}

/// A program with sections for each task and sub-programs, mended until a load accepts it.
pub fn accepted(random: &mut Random) -> Vec<u8> {
    let mut maker = Maker::new(random);
    let (start, mut blocks) = maker.program();
    maker.mend(start, &mut blocks);
    maker.image(start, &blocks)
}

/// An accepted program with a header number at an end of its range, or just past it: refused by 3, 1 or 4, or by its
/// blocks, if at all.
pub fn headed(random: &mut Random) -> Vec<u8> {
    let image = accepted(random);
    ends::header(random, &image)
}

/// The same without mending: blocks pass 5 to 8 and 23, walks decide.
fn wild(random: &mut Random) -> Vec<u8> {
    let mut maker = Maker::new(random);
    let (start, blocks) = maker.program();
    maker.image(start, &blocks)
}

/// Bytes that begin like an image, or not at all.
fn noise(random: &mut Random) -> Vec<u8> {
    let length = random.below(40);
    let mut image: Vec<u8> = (0..length).map(|_| random.byte()).collect();
    let format = random.pick(&[FORMAT, FORMAT_LANDINGS]) as u8;
    let header = [format, random.below(6) as u8, random.below(4) as u8, random.below(4) as u8, random.below(3) as u8, 2];
    let known = random.below(header.len() + 1).min(length);
    image[..known].copy_from_slice(&header[..known]);
    image
}

/// One to three damages: bytes changed, cut off, put in or taken out, header numbers in a longer form.
pub fn damage(random: &mut Random, image: &mut Vec<u8>) {
    let front_length = image::read_header(image).map_or(9, |(_, first)| first + 1);
    for _ in 0..random.between(1, 3) {
        let at = random.below(image.len().max(1)).min(image.len());
        let front = random.below(image.len().clamp(1, front_length)).min(image.len());
        match random.below(8) {
            0 => image.truncate(at),
            1 => image.extend((0..random.between(1, 9)).map(|_| 0)),
            2 => image.insert(front, random.byte()),
            3 if front < image.len() => drop(image.remove(front)),
            4 if front < image.len() => lengthen(image, front),
            5 if front < image.len() => image[front] = random.byte(),
            6 if at < image.len() => image[at] = random.byte(),
            _ if at < image.len() => image[at] ^= 1 << random.below(8),
            _ => (),
        }
    }
}

/// The image with another landing list of as many blocks, or of none in format 2 where it was format 1.
pub fn relisted(random: &mut Random, image: &[u8]) -> Option<Vec<u8>> {
    let (header, blocks) = image::read(image).ok()?;
    let mut list = header.landings.blocks().to_vec();
    if !list.is_empty() {
        let at = random.below(list.len());
        let least = if at == 0 { 0 } else { list[at - 1] + 1 };
        let limit = list.get(at + 1).map_or(header.count as u16, |next| *next);
        list[at] = least + random.below((limit - least) as usize) as u16;
    }
    Some(written(&Header { format: FORMAT_LANDINGS, landings: landings(&list, header.count), ..header }, blocks))
}

/// A landing list of blocks below the count, upwards.
fn landings(list: &[u16], count: usize) -> Landings {
    let mut landings = Landings::NONE;
    for block in list {
        landings.add(*block as usize, count).expect("blocks upwards, below the count");
    }
    landings
}

/// An image of a header and blocks, in its format.
pub fn written(header: &Header, blocks: &[u8]) -> Vec<u8> {
    let wanted = Wanted {
        format: header.format,
        kind: header.drive.kind,
        slot_b: header.drive.slot_b,
        slot_c: header.drive.slot_c,
        start: header.start as u32,
        count: header.count as u32,
    };
    let list: Vec<u8> = header.landings.blocks().iter().flat_map(|block| block.to_le_bytes()).collect();
    let mut out = vec![0; 9 + list.len() + blocks.len()];
    let verdict = match header.format {
        FORMAT => image::write(&wanted, blocks, &mut out),
        _ => image::write_landings(&wanted, &list, blocks, &mut out),
    };
    out.truncate(verdict.place as usize);
    out
}

/// A block that uses any pin, often one of a board, now and then with another byte that is wrong as well.
pub fn pin_block(random: &mut Random) -> Block {
    let bare = Drive { kind: TYPE_637F, slot_b: 0, slot_c: 0 };
    let on_board = |pin: &u8| [bare.input(*pin), bare.read_output(*pin)].contains(&Presence::OnBoard);
    let of_boards: Vec<u8> = (0..=255).filter(on_board).collect();
    let mut block = [0; BLOCK_LENGTH];
    block[0] = random.pick(&[0x63, 0x64, 0x70, 0x71, 0x72, 0x73]);
    let pin = if block[0] < 0x70 { 2 } else { 1 };
    block[pin] = if random.chance(50) { random.pick(&of_boards) } else { random.byte() };
    if random.chance(20) {
        block[random.between(1, BLOCK_LENGTH - 1)] = random.byte();
    }
    block
}

/// A number of one byte in two: refused by 2.
fn lengthen(image: &mut Vec<u8>, at: usize) {
    image[at] |= 0x80;
    image.insert(at + 1, 0);
}

/// What a block is drawn for: which task executes it, where it may jump to, which sub-programs it may call.
#[derive(Clone, Copy)]
struct Section {
    task: Option<usize>,
    first: usize,
    behind: usize,
}

/// Draws blocks for one header.
pub struct Maker<'a> {
    random: &'a mut Random,
    drive: Drive,
    count: usize,
    codes: Vec<u8>,
    inputs: Vec<u8>,
    read: Vec<u8>,
    written: Vec<u8>,
    sections: Vec<Section>,
    /// The format and the landing list, and the section that most landing blocks and 56s are of.
    format: u32,
    landings: Landings,
    home: usize,
}

/// Variables and flags that programs share, so that what one block writes another reads.
const SHARED: usize = 8;
/// Commands that few tasks may use, calls and jumps by a variable: drawn more often than the rest.
const OFTEN: [u8; 28] = [
    0x00, 0x01, 0x03, 0x04, 0x0E, 0x0E, 0x0F, 0x1F, 0x20, 0x21, 0x22, 0x23, 0x30, 0x31, 0x32, 0x33, 0x52, 0x52, 0x52, 0x56,
    0x56, 0x57, 0x58, 0x59, 0x5A, 0x5B, 0x5B, 0x86,
];
/// Blocks at the front of BIAS's section that set variables and start tasks.
const BEGINNING: usize = 10;
/// Variables that are set to good parameters, mostly, at a program's beginning; and to landing blocks.
pub const GOOD: std::ops::Range<usize> = 16..20;
const AIMED: std::ops::Range<usize> = 20..23;

impl Maker<'_> {
    pub fn new(random: &mut Random) -> Maker<'_> {
        let kind = random.below(5) as u32;
        let board = most_board(kind) as usize;
        let drive = Drive { kind, slot_b: random.between(0, board) as u32, slot_c: random.between(0, board) as u32 };
        let count = match random.below(100) {
            0..=14 => random.between(1, 8),
            15..=79 => random.between(9, 80),
            80..=92 => random.between(100, 300),
            93..=95 => random.pick(&[127, 128, 129, 255, 256, 257]),
            _ => random.pick(&[1500, 1499, 1000, 1280]),
        };
        let pins = |of: &dyn Fn(u8) -> Presence| (0..=255).filter(|pin| of(*pin) == Presence::Present).collect();
        Maker {
            random,
            drive,
            count,
            codes: codes().filter(|code| *code != 0x6E || drive.bit_jump() == Presence::Present).collect(),
            inputs: pins(&|pin| drive.input(pin)),
            read: pins(&|pin| drive.read_output(pin)),
            written: pins(&|pin| drive.written_output(pin)),
            sections: Vec::new(),
            format: FORMAT,
            landings: Landings::NONE,
            home: 0,
        }
    }

    fn header(&self, start: usize) -> Header {
        Header { format: self.format, drive: self.drive, start, count: self.count, landings: self.landings }
    }

    pub fn image(&self, start: usize, blocks: &[Block]) -> Vec<u8> {
        written(&self.header(start), &blocks.concat())
    }

    /// Most programs are of format 2. Their landing blocks are mostly of one section, BIAS's more often than others; some
    /// have as many as there may be, or the last block.
    fn list(&mut self) {
        if self.random.chance(35) {
            return;
        }
        self.format = FORMAT_LANDINGS;
        self.home = if self.random.chance(60) { 0 } else { self.random.below(self.sections.len()) };
        let Section { first, behind, .. } = self.sections[self.home];
        let most = MOST_LANDINGS.min(self.count);
        let number = match self.random.below(20) {
            0 => 0,
            1..=4 => most,
            5 => self.random.between(1, most),
            _ => self.random.between(1, most.min(6)),
        };
        let mut list = std::collections::BTreeSet::new();
        if number > 0 && self.random.chance(15) {
            list.insert(self.count as u16 - 1);
        }
        for _ in 0..number {
            list.insert(self.random.between(first, behind - 1) as u16);
        }
        while number == most && list.len() < number {
            list.insert(self.random.below(self.count) as u16);
        }
        let list: Vec<u16> = list.into_iter().take(most).collect();
        self.landings = landings(&list, self.count);
    }

    /// Another block, or another byte of one.
    fn change(&mut self, blocks: &mut [Block], at: usize) {
        let byte = self.random.below(BLOCK_LENGTH);
        let code = self.code();
        let [low, high] = (at as u16).to_le_bytes();
        match self.random.below(11) {
            0 => blocks[at][0] = self.random.byte(),
            1 => blocks[at][byte] = self.random.byte(),
            2 => blocks[at][byte] = blocks[at][byte].wrapping_add(1),
            3 => blocks[at] = [0x51, self.random.below(5) as u8, 0, 0, 0, 0, 0, 0],
            4 => blocks[at] = self.block(0x53, 0),
            5 => blocks[at] = [0x52, low, high, 0, 0, 0, 0, 0],
            6 => blocks[self.count - 1] = self.block(code, 0),
            7 => blocks[at] = pin_block(self.random),
            8..=9 => {
                let operand = ends::operand(self.random);
                blocks[at] = operand.put(self.block(operand.code, 0), self.count);
            }
            _ => blocks[at] = self.block(code, 0),
        }
    }

    /// Sections for BIAS, the PLC and mathematics, then up to ten sub-programs, each of which calls later ones only.
    fn lay_out(&mut self) {
        let subs = self.random.below(11);
        let parts = (3 + subs).min(self.count);
        let mut cuts: Vec<usize> = (1..parts).map(|_| self.random.below(self.count)).collect();
        cuts.push(0);
        cuts.push(self.count);
        cuts.sort_unstable();
        cuts.dedup();
        let tasks = [Some(BIAS), Some(PLC), Some(MATHEMATICS)];
        let bounds = cuts.windows(2).enumerate();
        self.sections = bounds
            .map(|(at, bound)| Section { task: tasks.get(at).copied().flatten(), first: bound[0], behind: bound[1] })
            .collect();
    }

    /// A program start and blocks that pass 5 to 8 and 23.
    fn program(&mut self) -> (usize, Vec<Block>) {
        self.lay_out();
        self.list();
        let mut blocks = Vec::new();
        for at in 0..self.sections.len() {
            for number in self.sections[at].first..self.sections[at].behind {
                let before = blocks.last().map_or(0x50, |block: &Block| block[0]);
                blocks.push(self.block_in(at, number, before));
            }
        }
        let main = self.sections[0];
        let start = if self.random.chance(80) { main.first } else { self.random.below(self.count) };
        (start, blocks)
    }

    /// A block for its place: beginnings start the other tasks and set variables, ends turn back. `before` is the code
    /// of the block before it.
    fn block_in(&mut self, section: usize, number: usize, before: u8) -> Block {
        let Section { task, first, behind } = self.sections[section];
        if number + 1 == behind && self.random.chance(98) {
            return self.ending(section);
        }
        if task == Some(BIAS) && self.random.chance(75) {
            if let Some(code) = self.on_the_way(before) {
                return self.block(code, section);
            }
        }
        if task == Some(BIAS) && number - first < BEGINNING && self.random.chance(80) {
            return self.beginning(section, number - first);
        }
        for _ in 0..20 {
            let code = self.code();
            let allowed = row(code).is_some_and(|row| match task {
                Some(task) => row.allowed(task),
                None => (0..TASKS).all(|task| row.allowed(task)) || self.random.chance(20),
            });
            let leads = match code {
                0x52 => section + 1 < self.sections.len(),
                0x56 => section == self.home && self.format == FORMAT_LANDINGS || self.random.chance(4),
                0x5B => self.home == 0 && self.format == FORMAT_LANDINGS || self.random.chance(4),
                _ => true,
            };
            if (allowed && leads && !matches!(code, 0x51 | 0x53)) || self.random.chance(1) {
                return self.block(code, section);
            }
        }
        self.block(0x50, section)
    }

    /// What often follows in BIAS: a move behind a 0E; behind a move a 58, or what can halt, a stop or another move.
    fn on_the_way(&mut self, before: u8) -> Option<u8> {
        match before {
            0x0E => Some(self.random.pick(&[0x00, 0x01, 0x03, 0x04])),
            0x00 | 0x01 | 0x03 | 0x04 => {
                Some(self.random.pick(&[0x58, 0x58, 0x58, 0x58, 0x58, 0x8D, 0x31, 0x32, 0x33, 0x5A, 0x00, 0x0F]))
            }
            _ => None,
        }
    }

    /// One of a program's first blocks: sets a variable to a good parameter or to a landing block, or starts another
    /// task.
    fn beginning(&mut self, section: usize, at: usize) -> Block {
        let good = self.random.between(1, MOST_SPEED as usize) as i32;
        let (variable, value) = if at < GOOD.len() {
            (GOOD.start + at, if self.random.chance(80) { good } else { ends::content(self.random) })
        } else if at < GOOD.len() + AIMED.len() && self.format == FORMAT_LANDINGS {
            (AIMED.start + at - GOOD.len(), self.aim())
        } else {
            let code = self.random.pick(&[0x54, 0x90, 0x0E]);
            return self.block(code, section);
        };
        let mut block = self.block(0x80, section);
        block[1] = variable as u8;
        block[2..6].copy_from_slice(&value.to_le_bytes());
        block
    }

    /// A content for 56 or 5B.
    fn aim(&mut self) -> i32 {
        let header = self.header(0);
        ends::aim(self.random, &header, 75)
    }

    fn code(&mut self) -> u8 {
        if self.random.chance(30) {
            return self.random.pick(&OFTEN);
        }
        let at = self.random.below(self.codes.len());
        self.codes[at]
    }

    /// The last block of a section: a task goes round or ends, a sub-program returns.
    fn ending(&mut self, section: usize) -> Block {
        let Section { task, first, .. } = self.sections[section];
        let Some(task) = task else {
            return self.block(0x53, section);
        };
        match self.random.below(10) {
            0 => [0x51, task as u8 + 1, 0, 0, 0, 0, 0, 0],
            1..=4 => [0x51, 0, 0, 0, 0, 0, 0, 0],
            _ => {
                let [low, high] = (first as u16).to_le_bytes();
                [0x55, low, high, 0, 0, 0, 0, 0]
            }
        }
    }

    fn variable(&mut self) -> u8 {
        match self.random.below(20) {
            0 => self.random.byte(),
            1..=3 => self.random.between(GOOD.start, GOOD.end - 1) as u8,
            _ => self.random.below(SHARED) as u8,
        }
    }

    fn flag(&mut self) -> u8 {
        if self.random.chance(5) { self.random.byte() } else { self.random.below(SHARED) as u8 }
    }

    fn bit(&mut self) -> u8 {
        self.random.below(2) as u8
    }

    fn constant(&mut self) -> i32 {
        match self.random.below(10) {
            0 => i32::MIN,
            1 => i32::MAX,
            2 => -1,
            3 => ends::content(self.random),
            4 => self.random.next() as i32,
            5 => -(self.random.below(100) as i32),
            _ => self.random.below(100) as i32,
        }
    }

    fn limited(&mut self, most: u32) -> [u8; 2] {
        let value = match self.random.below(4) {
            0 => 1,
            1 => most,
            _ => self.random.between(1, most as usize) as u32,
        };
        (value as u16).to_le_bytes()
    }

    /// Where a block of a section may lead: within it, to a later sub-program, or to the beginning of a task's section.
    fn address(&mut self, code: u8, section: usize) -> u16 {
        let of_task = |task: usize| task.min(self.sections.len() - 1);
        let target = match code {
            0x52 if section.max(2) + 1 < self.sections.len() => {
                let next = section.max(2) + 1;
                let last = (next + 1).min(self.sections.len() - 1);
                self.random.between(next, last)
            }
            0x54 => of_task(PLC),
            0x57 => of_task(BIAS),
            0x90 => of_task(MATHEMATICS),
            _ => section,
        };
        let Section { first, behind, .. } = self.sections[target];
        let inside = matches!(code, 0x52 | 0x54 | 0x57 | 0x90) && self.random.chance(85);
        let address = match self.random.below(100) {
            0..=1 => self.random.below(self.count),
            _ if inside => first,
            _ => self.random.between(first, behind - 1),
        };
        address as u16
    }

    /// A block of this code that passes 5 to 8 and 23.
    fn block(&mut self, code: u8, section: usize) -> Block {
        let mut block = [0; BLOCK_LENGTH];
        block[0] = code;
        match code {
            0x0F => block[1] = self.bit(),
            0x1F => {
                block[1] = self.bit();
                block[2..4].copy_from_slice(&self.limited(MOST_RAMP));
            }
            0x20 => block[1..5].copy_from_slice(&self.constant().to_le_bytes()),
            0x21 => block[1..3].copy_from_slice(&self.limited(MOST_SPEED)),
            0x22 | 0x23 => block[1..3].copy_from_slice(&self.limited(MOST_RAMP)),
            0x31..=0x33 | 0x5A if self.random.chance(80) => {
                block[1] = self.random.between(GOOD.start, GOOD.end - 1) as u8;
            }
            0x56 | 0x5B if self.random.chance(90) => block[1] = self.random.between(AIMED.start, AIMED.end - 1) as u8,
            0x30..=0x33 | 0x40..=0x43 | 0x56 | 0x5A | 0x5B => block[1] = self.variable(),
            0x51 => block[1] = self.random.below(4) as u8,
            0x52 | 0x54 | 0x55 | 0x57 | 0x90 => {
                block[1..3].copy_from_slice(&self.address(code, section).to_le_bytes());
            }
            0x59 => {
                let units = if self.random.chance(90) { self.random.below(12) as u16 } else { self.random.next() as u16 };
                block[1..3].copy_from_slice(&units.to_le_bytes());
            }
            0x60..=0x73 => self.level_operands(&mut block, section),
            0x80..=0x8D => self.variable_operands(&mut block, section),
            _ => (),
        }
        block
    }

    fn level_operands(&mut self, block: &mut Block, section: usize) {
        block[1] = self.flag();
        block[2] = self.flag();
        let code = block[0];
        match code {
            0x60 => block[2] = self.bit(),
            0x63 => block[2] = self.random.pick(&self.inputs),
            0x64 => block[2] = self.random.pick(&self.read),
            0x65..=0x67 => block[3] = self.flag(),
            0x6E => {
                block[1] = self.variable();
                block[2] = self.random.below(32) as u8;
            }
            0x61 | 0x70 | 0x71 => block[2] = self.bit(),
            0x72 => block[2] = self.bit(),
            _ => (),
        }
        match code {
            0x70 => block[1] = self.random.pick(&self.inputs),
            0x71 => block[1] = self.random.pick(&self.read),
            0x72 | 0x73 => block[1] = self.random.pick(&self.written),
            _ => (),
        }
        if matches!(code, 0x61 | 0x6E | 0x70 | 0x71) {
            block[3] = self.bit();
            block[4..6].copy_from_slice(&self.address(code, section).to_le_bytes());
        }
    }

    fn variable_operands(&mut self, block: &mut Block, section: usize) {
        let code = block[0];
        let condition = self.random.below(8) as u8;
        let [low, high] = self.address(code, section).to_le_bytes();
        block[1] = self.variable();
        match code {
            0x80 if self.random.chance(15) => {
                block[1] = self.random.between(AIMED.start, AIMED.end - 1) as u8;
                block[2..6].copy_from_slice(&self.aim().to_le_bytes());
            }
            0x80 => block[2..6].copy_from_slice(&self.constant().to_le_bytes()),
            0x81 => {
                block[2..6].copy_from_slice(&self.constant().to_le_bytes());
                block[6] = condition * 16 + high;
                block[7] = low;
            }
            0x82..=0x85 => {
                block[2] = self.variable();
                let constant = self.constant();
                let divisor = if code == 0x85 && constant == 0 { -1 } else { constant };
                block[3..7].copy_from_slice(&divisor.to_le_bytes());
            }
            0x86 => {
                let number = self.random.between(1, 32);
                let most = 256 - number;
                let any = self.random.between(0, most);
                block[2] = self.random.pick(&[0, most, any, any]) as u8;
                block[3] = number as u8;
            }
            0x88 => block[2] = self.variable(),
            0x89 => {
                block[2..6].copy_from_slice(&[condition, self.variable(), low, high]);
            }
            _ => {
                block[2] = self.variable();
                block[3] = self.variable();
                if code == 0x8D && self.random.chance(70) {
                    block[3] = self.random.between(GOOD.start, GOOD.end - 1) as u8;
                }
            }
        }
    }

    /// Replaces blocks at bad places until a load accepts the program.
    fn mend(&mut self, start: usize, blocks: &mut [Block]) {
        let mut marks = vec![0; MARKS_LENGTH];
        let mut state = vec![0; STATE_LENGTH];
        let mut mended = vec![0u8; self.count];
        loop {
            let verdict = reference::load(&self.image(start, blocks), &mut marks, &mut state);
            if verdict.number == SUCCESS {
                return;
            }
            let at = verdict.place as usize;
            mended[at] += 1;
            blocks[at] = self.instead(verdict.number, at, mended[at]);
        }
    }

    /// Something that is not bad where this block was; at last a jump to itself, which never is.
    fn instead(&mut self, number: u32, at: usize, times: u8) -> Block {
        let [low, high] = (at as u16).to_le_bytes();
        if times > 3 {
            return [0x55, low, high, 0, 0, 0, 0, 0];
        }
        let section = self.sections.iter().position(|section| at < section.behind).unwrap_or(0);
        let codes: &[u8] = match number {
            PAST_END | NO_CALL => &[0x55, 0x51],
            _ => &[0x50, 0x60, 0x61, 0x65, 0x70, 0x72, 0x80, 0x82, 0x89, 0x8A, 0x40],
        };
        let code = self.random.pick(codes);
        let mut block = self.block(code, section);
        if code == 0x51 {
            block[1] = 0;
        }
        block
    }
}
