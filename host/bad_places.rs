//! Prints test images in which walks reach two or three bad places, or foreign 51s, in one line of the file or several, of
//! one task or several, at several depths; then those in which they reach one at the greatest depth; crates/images/stdin
//! ends with them. Change request 2 reports the least bad place by block, then task, then depth: the run fails if another
//! order of the three would report the same place in every image, or if 7, 9, 10 or 12 is not met at the greatest depth
//! of every task.

use reference::answer::Place;
use reference::drive::Drive;
use reference::hex::digits_of;
use reference::image::{self, Block, Header, Landings, Wanted};
use reference::number::*;
use reference::walk;
use std::process::ExitCode;

/// A 637, without boards.
const KIND: u32 = 2;

/// What a walk is to reach: `line` counts the lines with faults from the top of the file.
#[derive(Clone, Copy)]
struct Spot {
    line: usize,
    task: usize,
    depth: usize,
    fault: Fault,
}

/// What is wrong at a spot: whatever its line can have (9, 10 or 11, else 12), or one fault alone.
#[derive(Clone, Copy)]
enum Fault {
    Any,
    Foreign,
    Forbidden,
    PastEnd,
}

fn spot(line: usize, task: usize, depth: usize) -> Spot {
    Spot { line, task, depth, fault: Fault::Any }
}

fn foreign(line: usize, task: usize, depth: usize) -> Spot {
    Spot { fault: Fault::Foreign, ..spot(line, task, depth) }
}

/// Tried in this order: 52 is bad at the greatest depth, 53 at depth 0, 20 outside BIAS, each of the rest in one task.
const BAD_CODES: [u8; 6] = [0x52, 0x53, 0x20, 0x57, 0x54, 0x90];
/// For each task a command that is forbidden to it alone.
const FORBIDDEN_CODES: [u8; TASKS] = [0x57, 0x54, 0x90];

/// The last command of the file is bad everywhere by 12. That of images with three spots is bad by 9 in one of its tasks,
/// so that 9 before 12 is met as well.
fn last_code(spots: &[Spot]) -> u8 {
    if spots.len() == 3 { FORBIDDEN_CODES[spots[2].task] } else { 0x50 }
}

/// A command that is bad at all spots of a line, or a 51 that ends another task; none where only the file's end is bad.
fn faulty(spots: &[Spot]) -> Option<Block> {
    let first = spots.first()?;
    match first.fault {
        Fault::Foreign => Some([0x51, 1 + (first.task as u8 + 1) % TASKS as u8, 0, 0, 0, 0, 0, 0]),
        Fault::Forbidden => Some(to(FORBIDDEN_CODES[first.task], 0)),
        Fault::PastEnd => None,
        Fault::Any => bad_at_all(spots),
    }
}

fn bad_at_all(spots: &[Spot]) -> Option<Block> {
    // so long that nothing is past its end
    let drive = Drive { kind: KIND, slot_b: 0, slot_c: 0 };
    let long = Header { format: FORMAT, drive, start: 0, count: MOST_BLOCKS, landings: Landings::NONE };
    let at = |s: &Spot| Place { task: s.task, block: s.line, depth: s.depth };
    let bad = |code: u8| spots.iter().all(|s| walk::bad(&long, &to(code, 0), at(s)) != SUCCESS);
    BAD_CODES.into_iter().find(|code| bad(*code)).map(|code| to(code, 0))
}

/// A command that names a block in D1 and D2.
fn to(code: u8, block: usize) -> Block {
    let [low, high] = (block as u16).to_le_bytes();
    [code, low, high, 0, 0, 0, 0, 0]
}

/// 61, if flag 0 is 0: a walk goes on at the named block and at the next one.
fn branch(block: usize) -> Block {
    let [low, high] = (block as u16).to_le_bytes();
    [0x61, 0, 0, 0, low, high, 0, 0]
}

/// A task's way to its spots, from block `first` on: a branch to each spot of a depth, then the call that leads one deeper.
/// Line k of the faults stands at block `lines[k]`.
fn way(spots: &[Spot], task: usize, first: usize, lines: &[usize]) -> Vec<Block> {
    let own: Vec<&Spot> = spots.iter().filter(|s| s.task == task).collect();
    let deepest = own.iter().map(|s| s.depth).max().unwrap_or(0);
    let mut blocks = Vec::new();
    for depth in 0..=deepest {
        blocks.extend(own.iter().filter(|s| s.depth == depth).map(|s| branch(lines[s.line])));
        if depth < deepest {
            blocks.push(to(0x52, first + blocks.len() + 2));
        }
        blocks.push(to(0x55, first + blocks.len()));
    }
    blocks
}

/// The program behind the lines above it: starts of the PLC and of mathematics, and each task's way.
fn with_program(above: &[Block], spots: &[Spot], lines: &[usize]) -> Vec<Block> {
    let mut blocks = above.to_vec();
    blocks.extend([to(0x54, 0), to(0x90, 0)]);
    for task in 0..TASKS {
        let first = blocks.len();
        if task != BIAS {
            let start = above.len() + task - 1;
            blocks[start] = to(blocks[start][0], first);
        }
        blocks.extend(way(spots, task, first, lines));
    }
    blocks
}

/// An image, and the places that it is made for.
struct Made {
    image: Vec<u8>,
    places: Vec<Place>,
}

/// An image with these spots: some lines that nothing reaches, the faults, the program. Where no command is bad at every
/// spot of the last line, that line stands at the end of the file; no image where another line would have to.
fn made(spots: &[Spot], unreached: usize) -> Option<Made> {
    let count = spots[spots.len() - 1].line + 1;
    let on = |line: usize| spots.iter().copied().filter(|s| s.line == line).collect::<Vec<Spot>>();
    let mut above = vec![to(0x50, 0); unreached];
    above.extend((0..count).map_while(|line| faulty(&on(line))));
    let mut lines: Vec<usize> = (unreached..unreached + count).collect();
    let missing = unreached + count - above.len();
    if missing > 1 {
        return None;
    }
    let mut blocks = with_program(&above, spots, &lines);
    if missing == 1 {
        lines[count - 1] = blocks.len();
        blocks = with_program(&above, spots, &lines);
        blocks.push(to(last_code(spots), 0));
    }
    let (start, count) = (above.len() as u32, blocks.len() as u32);
    let wanted = Wanted { format: FORMAT, kind: KIND, slot_b: 0, slot_c: 0, start, count };
    let mut image = vec![0; 8 + BLOCK_LENGTH * blocks.len()];
    let written = image::write(&wanted, &blocks.concat(), &mut image);
    image.truncate(written.place as usize);
    let places = spots.iter().map(|s| Place { task: s.task, block: lines[s.line], depth: s.depth }).collect();
    Some(Made { image, places })
}

/// Two spots and three: in one line and in several, of one task and of several, at depths 0, 1 and the greatest.
fn all_spots() -> Vec<Vec<Spot>> {
    let mut all = Vec::new();
    let shallow: Vec<(usize, usize)> = (0..TASKS).flat_map(|task| [(task, 0), (task, 1)]).collect();
    for &(a, d) in &shallow {
        for &(b, e) in &shallow {
            if (a, d) < (b, e) {
                all.push(vec![spot(0, a, d), spot(0, b, e)]);
            }
            all.push(vec![spot(0, a, d), spot(1, b, e)]);
        }
    }
    for a in 0..TASKS {
        for b in 0..TASKS {
            for (d, e) in [(0, MOST_DEPTH), (MOST_DEPTH, 0)] {
                if a < b {
                    all.push(vec![spot(0, a, d), spot(0, b, e)]);
                }
                if a != b {
                    all.push(vec![spot(0, a, d), spot(1, b, e)]);
                }
            }
            all.push(vec![spot(0, a, 0), foreign(1, b, 0)]);
            if a != b {
                all.push(vec![foreign(0, a, 1), foreign(1, b, 0)]);
            }
        }
    }
    for lines in [[0, 0, 0], [0, 0, 1], [0, 1, 1], [0, 1, 2]] {
        for [a, b, c] in [[0, 1, 2], [0, 2, 1], [1, 0, 2], [1, 2, 0], [2, 0, 1], [2, 1, 0]] {
            // tasks of one line are put once
            if (lines[0] == lines[1] && a > b) || (lines[1] == lines[2] && b > c) {
                continue;
            }
            for depths in 0..8 {
                let depth = |at: usize| depths >> at & 1;
                all.push(vec![spot(lines[0], a, depth(0)), spot(lines[1], b, depth(1)), spot(lines[2], c, depth(2))]);
            }
        }
    }
    all
}

/// One spot at the greatest depth: 7, 9, 10, 12 in each task.
fn deepest_spots() -> Vec<Vec<Spot>> {
    let faults = [Fault::Foreign, Fault::Forbidden, Fault::Any, Fault::PastEnd];
    let all = (0..TASKS).flat_map(|task| faults.map(|fault| Spot { fault, ..spot(0, task, MOST_DEPTH) }));
    all.map(|spot| vec![spot]).collect()
}

/// All images: faults from the top of the file on; then on both sides of where a block's number takes a second byte; then at
/// the greatest depth.
fn all_made() -> Vec<Made> {
    let mut all: Vec<Made> = all_spots().iter().filter_map(|spots| made(spots, 0)).collect();
    for [above, below] in [[BIAS, PLC], [MATHEMATICS, BIAS]] {
        all.extend(made(&[spot(0, above, 0), spot(1, below, 0)], 255));
    }
    all.extend(deepest_spots().iter().filter_map(|spots| made(spots, 0)));
    all
}

type Key = fn(&Place) -> [usize; 3];

/// The asked order, and the others of block, task and depth.
const ASKED: Key = |p| [p.block, p.task, p.depth];
const OTHERS: [(&str, Key); 5] = [
    ("task, block, depth", |p| [p.task, p.block, p.depth]),
    ("block, depth, task", |p| [p.block, p.depth, p.task]),
    ("task, depth, block", |p| [p.task, p.depth, p.block]),
    ("depth, block, task", |p| [p.depth, p.block, p.task]),
    ("depth, task, block", |p| [p.depth, p.task, p.block]),
];

fn found(image: &[u8]) -> walk::Found {
    let (header, blocks) = image::read(image).expect("an image");
    walk::search(&header, blocks, &mut vec![0; MARKS_LENGTH])
}

/// Whether walks reach what the image is made for, and nothing else that is refused.
fn is_right(made: &Made) -> bool {
    let found = found(&made.image);
    let bad: Vec<Place> = found.bad.iter().map(|(place, _)| *place).collect();
    let meant = |block: &usize| made.places.iter().any(|place| place.block == *block && !bad.contains(place));
    bad.len() + found.foreign.len() == made.places.len()
        && bad.iter().all(|place| made.places.contains(place))
        && found.foreign.iter().all(meant)
}

/// Whether another order would report another place.
fn tells(made: &Made, other: Key) -> bool {
    let found = found(&made.image);
    let least = |key: Key| found.bad.iter().map(|(place, _)| place).min_by_key(|place| key(place));
    found.foreign.is_empty() && least(ASKED) != least(other)
}

/// Whether walks meet a number at the greatest depth of a task; a 7 where that is all that an image is made for.
fn met_deepest(all: &[Made], number: u32, task: usize) -> bool {
    let deepest = |place: &Place| place.task == task && place.depth == MOST_DEPTH;
    all.iter().any(|made| {
        let found = found(&made.image);
        let bad = found.bad.iter().any(|(place, met)| *met == number && deepest(place));
        bad || number == BAD_OPERAND && !found.foreign.is_empty() && made.places.iter().all(deepest)
    })
}

fn main() -> ExitCode {
    let all = all_made();
    let mut good = true;
    for made in &all {
        println!("{}", digits_of(&made.image));
        if !is_right(made) {
            eprintln!("not the places that it is made for: {}", digits_of(&made.image));
            good = false;
        }
    }
    for (name, other) in OTHERS {
        let count = all.iter().filter(|made| tells(made, other)).count();
        eprintln!("by {name}: {count} of {} images tell", all.len());
        good &= count > 0;
    }
    for number in [BAD_OPERAND, FORBIDDEN, TOO_DEEP, PAST_END] {
        for task in (0..TASKS).filter(|task| !met_deepest(&all, number, *task)) {
            eprintln!("{number} is not met at the greatest depth of task {task}");
            good = false;
        }
    }
    if good { ExitCode::SUCCESS } else { ExitCode::FAILURE }
}
