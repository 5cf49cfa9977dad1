//! Makes a case that differs smaller: fewer steps, fewer and plainer blocks; and prints it.

use crate::case::{Action, Case};
use crate::ends;
use crate::program::written;
use crate::tally::Tally;
use reference::command::row;
use reference::hex::digits_of;
use reference::image::{self, Block, Header, Landings};
use reference::number::*;
use reference::state::{record, BLOCK, LANDINGS, POSITION, STARTS, STATE_LENGTH, TIME};

/// How many cases a search for a smaller one may try.
const TRIES: usize = 60_000;

struct Shrinking {
    best: Case,
    left: usize,
}

/// The smallest case found that still differs.
pub fn shrunk(case: &Case) -> Case {
    let mut shrinking = Shrinking { best: case.clone(), left: TRIES };
    while shrinking.left > 0 && shrinking.round() {}
    shrinking.best
}

fn differs(case: &Case) -> bool {
    case.run(&mut Tally::new()).is_err()
}

impl Shrinking {
    /// Takes a smaller case if it still differs.
    fn take(&mut self, smaller: Case) -> bool {
        if self.left == 0 {
            return false;
        }
        self.left -= 1;
        let taken = differs(&smaller);
        if taken {
            self.best = smaller;
        }
        taken
    }

    /// One round over everything that can get smaller; tells whether something did.
    fn round(&mut self) -> bool {
        let lengths = self.plain_lengths();
        let actions = self.fewer_actions();
        let single = self.single_step();
        let blocks = self.fewer_blocks();
        let landings = self.fewer_landings();
        let plainer = self.plainer_actions();
        let bytes = self.plainer_bytes();
        lengths || actions || single || blocks || landings || plainer || bytes || self.block_and_step()
    }

    fn plain_lengths(&mut self) -> bool {
        let plain = (MARKS_LENGTH, STATE_LENGTH, 0);
        if (self.best.marks_len, self.best.state_len, self.best.fill) == plain {
            return false;
        }
        self.take(Case { marks_len: plain.0, state_len: plain.1, fill: plain.2, ..self.best.clone() })
    }

    /// Leaves out stretches of steps, long ones first.
    fn fewer_actions(&mut self) -> bool {
        let mut smaller = false;
        let mut stretch = self.best.actions.len();
        while stretch > 0 {
            let mut at = 0;
            while at < self.best.actions.len() {
                let mut case = self.best.clone();
                case.actions.drain(at..(at + stretch).min(case.actions.len()));
                if self.take(case) { smaller = true } else { at += stretch }
            }
            stretch /= 2;
        }
        smaller
    }

    /// Steps without pokes, inputs and levels.
    fn plainer_actions(&mut self) -> bool {
        let edits: [fn(&mut Action); 7] = [
            |action| action.pokes.clear(),
            |action| action.inputs.clear(),
            |action| action.start = 0,
            |action| action.ramp_ended = 0,
            |action| action.in_window = 0,
            |action| action.lent = None,
            |action| action.pokes.truncate(action.pokes.len().saturating_sub(1)),
        ];
        let mut smaller = false;
        for at in 0..self.best.actions.len() {
            for edit in edits {
                let mut case = self.best.clone();
                let before = weight(&case.actions[at]);
                edit(&mut case.actions[at]);
                smaller |= weight(&case.actions[at]) < before && self.take(case);
            }
        }
        smaller
    }

    /// Leaves out stretches of blocks, long ones first, from the end.
    fn fewer_blocks(&mut self) -> bool {
        let mut smaller = false;
        let mut stretch = blocks_of(&self.best.image) / 2;
        while stretch > 0 {
            let mut at = blocks_of(&self.best.image);
            while at >= stretch {
                at -= stretch;
                if let Some(case) = without_blocks(&self.best, at, stretch) {
                    smaller |= self.take(case);
                }
            }
            stretch /= 2;
        }
        smaller
    }

    /// Leaves out landing blocks, the last one first; at last the format.
    fn fewer_landings(&mut self) -> bool {
        let mut smaller = false;
        for at in (0..MOST_LANDINGS).rev() {
            let Ok((header, blocks)) = image::read(&self.best.image) else {
                return smaller;
            };
            let kept = header.landings.blocks().iter().enumerate().filter(|(number, _)| *number != at);
            let landings = list_of(kept.map(|(_, block)| *block as usize), header.count);
            if landings != header.landings {
                let image = written(&Header { landings, ..header }, blocks);
                smaller |= self.take(Case { image, ..self.best.clone() });
            } else if at == 0 && header.format != FORMAT {
                let image = written(&Header { format: FORMAT, ..header }, blocks);
                smaller |= self.take(Case { image, ..self.best.clone() });
            }
        }
        smaller
    }

    /// Leaves out a block together with a step, for runs in which several tasks must meet.
    fn block_and_step(&mut self) -> bool {
        let mut smaller = false;
        for at in (0..blocks_of(&self.best.image)).rev() {
            for action in 0..self.best.actions.len() {
                let Some(mut case) = without_blocks(&self.best, at, 1) else {
                    return smaller;
                };
                case.actions.remove(action);
                if self.take(case) {
                    smaller = true;
                    break;
                }
            }
        }
        smaller
    }

    /// One step alone, with the program started where that step stands.
    fn single_step(&mut self) -> bool {
        let Some(last) = self.best.actions.last().filter(|_| self.best.actions.len() > 1).cloned() else {
            return false;
        };
        let Ok((header, blocks)) = image::read(&self.best.image) else {
            return false;
        };
        let blocks = blocks.to_vec();
        (0..header.count).any(|start| {
            let image = written(&Header { start, ..header }, &blocks);
            self.take(Case { image, actions: vec![last.clone()], ..self.best.clone() })
        })
    }

    /// Blocks that do nothing, jumps to themselves, bytes of 0; of an image that is none, fewer bytes.
    fn plainer_bytes(&mut self) -> bool {
        let mut smaller = false;
        let count = blocks_of(&self.best.image);
        for at in 0..count {
            let first = self.best.image.len() - BLOCK_LENGTH * (count - at);
            for plain in plainer_blocks(&self.best.image[first..first + BLOCK_LENGTH], at) {
                let mut case = self.best.clone();
                case.image[first..first + BLOCK_LENGTH].copy_from_slice(&plain);
                smaller |= self.take(case);
            }
        }
        if count == 0 {
            smaller |= self.fewer_bytes();
        }
        smaller
    }

    fn fewer_bytes(&mut self) -> bool {
        let mut smaller = false;
        for at in (0..self.best.image.len()).rev() {
            let mut case = self.best.clone();
            case.image.remove(at);
            if self.take(case) {
                smaller = true;
            } else if self.best.image[at] != 0 {
                let mut case = self.best.clone();
                case.image[at] = 0;
                smaller |= self.take(case);
            }
        }
        smaller
    }
}

fn weight(action: &Action) -> usize {
    let levels = [action.start, action.ramp_ended, action.in_window].iter().filter(|level| **level != 0).count();
    action.pokes.len() + action.inputs.len() + levels + usize::from(action.lent.is_some())
}

/// What a block might be replaced with: each has fewer bytes that are not 0 than the one before, or is a NOP.
fn plainer_blocks(block: &[u8], at: usize) -> Vec<Block> {
    let [low, high] = (at as u16).to_le_bytes();
    let simple = [[0x50, 0, 0, 0, 0, 0, 0, 0], [0x55, low, high, 0, 0, 0, 0, 0]];
    let rank = simple.iter().position(|plain| plain == block).unwrap_or(simple.len());
    let mut all = simple[..rank].to_vec();
    for byte in (1..BLOCK_LENGTH).filter(|byte| rank == simple.len() && block[*byte] != 0) {
        let mut plain: Block = block.try_into().unwrap_or_default();
        plain[byte] = 0;
        all.push(plain);
    }
    all
}

fn blocks_of(image: &[u8]) -> usize {
    image::read(image).map_or(0, |(header, _)| header.count)
}

/// The case without a stretch of blocks; addresses behind it move down, also those that somebody else writes.
fn without_blocks(case: &Case, at: usize, stretch: usize) -> Option<Case> {
    let (header, blocks) = image::read(&case.image).ok()?;
    let count = header.count.checked_sub(stretch).filter(|count| *count > 0)?;
    let moved = |address: usize| match address {
        before if before < at => before,
        within if within < at + stretch => at.min(count - 1),
        behind => behind - stretch,
    };
    let mut left = Vec::new();
    for number in (0..header.count).filter(|number| !(at..at + stretch).contains(number)) {
        left.extend_from_slice(&readdressed(image::block(blocks, number), &moved));
    }
    let landings = list_of(header.landings.blocks().iter().map(|block| moved(*block as usize)), count);
    let image = written(&Header { start: moved(header.start), count, landings, ..header }, &left);
    let mut actions = case.actions.clone();
    for action in &mut actions {
        move_pokes(&mut action.pokes, &moved);
    }
    Some(Case { image, actions, ..case.clone() })
}

/// A landing list of these blocks; those that fall together are one.
fn list_of(blocks: impl Iterator<Item = usize>, count: usize) -> Landings {
    let mut list = Landings::NONE;
    for block in blocks {
        list.add(block, count);
    }
    list
}

/// Whether a state's byte is the low one of a block number: landing blocks, start blocks, then a task's block and return
/// entries.
fn is_block_field(at: usize) -> bool {
    let within = |first: usize, behind: usize| (first..behind).contains(&at) && (at - first) % 2 == 0;
    within(LANDINGS, POSITION)
        || within(STARTS, record(BIAS))
        || (0..TASKS).any(|task| within(record(task) + BLOCK, record(task) + TIME))
}

fn move_pokes(pokes: &mut [(usize, u8)], moved: &dyn Fn(usize) -> usize) {
    for number in 0..pokes.len() {
        let (at, low) = pokes[number];
        if !is_block_field(at) {
            continue;
        }
        let high = pokes.iter().rposition(|poke| poke.0 == at + 1);
        let address = low as usize + 256 * high.map_or(0, |high| pokes[high].1 as usize);
        let [low, upper] = (moved(address) as u16).to_le_bytes();
        pokes[number].1 = low;
        if let Some(high) = high {
            pokes[high].1 = upper;
        }
    }
}

fn readdressed(block: &Block, moved: &dyn Fn(usize) -> usize) -> Block {
    let mut block = *block;
    if let Some(named) = row(block[0]).and_then(|row| row.named(&block)) {
        ends::put_address(&mut block, moved(named as usize) as u16);
    }
    block
}

/// Prints a case so that a person can do it by hand.
pub fn print(case: &Case) {
    println!("image, {} bytes: {}", case.image.len(), digits_of(&case.image));
    if let Ok((header, blocks)) = image::read(&case.image) {
        println!("{header:?}");
        for number in 0..header.count {
            println!("  block {number}: {:02X?}", image::block(blocks, number));
        }
    }
    println!("marks {} bytes, state {} bytes, filled with {:02X}", case.marks_len, case.state_len, case.fill);
    for (number, action) in case.actions.iter().enumerate() {
        print!("  step {number}: task {} start {}", action.task, action.start);
        print!(" ramp ended {} in window {}", action.ramp_ended, action.in_window);
        print_rest(action);
        if let Some(lent) = &action.lent {
            print!(" lent {}", digits_of(lent));
        }
        println!();
    }
}

fn print_rest(action: &Action) {
    if !action.inputs.is_empty() {
        print!(" inputs (pin, byte) {:?}", action.inputs);
    }
    if action.inputs_len != INPUTS_LENGTH {
        print!(" inputs of {} bytes", action.inputs_len);
    }
    if !action.pokes.is_empty() {
        print!(" state bytes written before (at, byte) {:?}{}", action.pokes, if action.keep { ", kept" } else { "" });
    }
    if action.state_len != STATE_LENGTH {
        print!(" state of {} bytes", action.state_len);
    }
}
