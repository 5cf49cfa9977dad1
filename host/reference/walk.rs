//! Document 01, "Walks": what one place breaks (9 to 12, and ruling 2's 7), and the search over all places that walks
//! reach.

use crate::answer::{Place, Verdict};
use crate::command::row;
use crate::image::{block, Block, Header};
use crate::number::*;

/// Ruling 2: a 51 whose mode ends another task than the one that executes it.
pub fn foreign(block: &Block, task: usize) -> bool {
    block[0] == 0x51 && block[1] != 0 && block[1] as usize != task + 1
}

/// 0, or what a place breaks: "9 command forbidden to the task"; "10 is a call at depth 5" (change request 6); "11 53 at
/// depth 0; 12 a block it may continue with is past the end". The block has passed 5 to 8 and 23 and is no foreign 51.
pub fn bad(header: &Header, block: &Block, place: Place) -> u32 {
    let Some(row) = row(block[0]) else {
        return BAD_CODE;
    };
    if !row.allowed(place.task) {
        FORBIDDEN
    } else if row.code == 0x52 && place.depth == MOST_DEPTH {
        TOO_DEEP
    } else if row.code == 0x53 && place.depth == 0 {
        NO_CALL
    } else if row.next && place.block + 1 >= header.count {
        PAST_END
    } else {
        SUCCESS
    }
}

/// The search: the marks say which places a walk has reached, `open` which of them it has yet to go on from.
struct Search<'a> {
    header: &'a Header,
    blocks: &'a [u8],
    marks: &'a mut [u8],
    open: Vec<Place>,
    found: Found,
}

/// What walks reach that is refused: the blocks of foreign 51s, and the bad places with their numbers; in no order.
#[derive(Default)]
pub struct Found {
    pub foreign: Vec<usize>,
    pub bad: Vec<(Place, u32)>,
}

/// What all walks say of a program whose blocks have passed: 7 at the least foreign 51, else the least bad place.
/// Change request 2: "Among bad places the least now counts by block, then task, then depth."
pub fn judge(header: &Header, blocks: &[u8], marks: &mut [u8]) -> Verdict {
    let found = search(header, blocks, marks);
    let foreign = found.foreign.into_iter().min();
    let bad = found.bad.into_iter().min_by_key(|(place, _)| (place.block, place.task, place.depth));
    match (foreign, bad) {
        (Some(block), _) => Verdict::at(BAD_OPERAND, block),
        (None, Some((place, number))) => Verdict::at_place(number, place),
        (None, None) => Verdict::at(SUCCESS, 0),
    }
}

/// Everything refused that walks reach. Only the first `MARKS_LENGTH` marks are touched.
pub fn search(header: &Header, blocks: &[u8], marks: &mut [u8]) -> Found {
    let marks = &mut marks[..MARKS_LENGTH];
    marks.fill(0);
    let mut search = Search { header, blocks, marks, open: Vec::new(), found: Found::default() };
    search.reach(Place { task: BIAS, block: header.start, depth: 0 });
    while let Some(place) = search.open.pop() {
        search.visit(place);
    }
    search.found
}

impl Search<'_> {
    /// Marks a place that a walk goes to.
    fn reach(&mut self, place: Place) {
        let mark = &mut self.marks[(place.task * MOST_BLOCKS + place.block) * (MOST_DEPTH + 1) + place.depth];
        if *mark == 0 {
            *mark = 1;
            self.open.push(place);
        }
    }

    /// Judges a place; "no walk continues from a bad place", nor from a foreign 51.
    fn visit(&mut self, place: Place) {
        let block = block(self.blocks, place.block);
        if foreign(block, place.task) {
            self.found.foreign.push(place.block);
            return;
        }
        match bad(self.header, block, place) {
            SUCCESS => self.go_on(block, place),
            number => self.found.bad.push((place, number)),
        }
    }

    /// Every block that a command may continue with. A return to a start leads to a place that the walk's latest 54 or
    /// 90, or its beginning, has already reached, so it adds none; 53 leads nowhere. Change request 1: "A walk continues
    /// from 56 to every landing block at the same depth, and from 5B to every one in task 0 at depth 0."
    fn go_on(&mut self, block: &Block, place: Place) {
        let Some(row) = row(block[0]) else {
            return;
        };
        if let Some(named) = row.named(block) {
            let named = named as usize;
            self.reach(match row.code {
                0x52 => Place { block: named, depth: place.depth + 1, ..place },
                0x54 => Place { task: PLC, block: named, depth: 0 },
                0x57 => Place { task: BIAS, block: named, depth: 0 },
                0x90 => Place { task: MATHEMATICS, block: named, depth: 0 },
                _ => Place { block: named, ..place },
            });
        }
        let header = self.header;
        for landing in header.landings.blocks() {
            let landing = *landing as usize;
            match row.code {
                0x56 => self.reach(Place { block: landing, ..place }),
                0x5B => self.reach(Place { task: BIAS, block: landing, depth: 0 }),
                _ => (),
            }
        }
        if row.next {
            self.reach(Place { block: place.block + 1, ..place });
        }
    }
}
