//! Document 01, "The image": its numbers, its header and its blocks, read and written; and the landing list of change
//! request 1.

use crate::answer::Verdict;
use crate::drive::{most_board, Drive, TYPE_637F};
use crate::number::*;

/// The numbers at the front of an image. Change request 1: "the landing list counts as part of the header".
#[derive(Clone, Copy, Debug, PartialEq, Eq)]
pub struct Header {
    pub format: u32,
    pub drive: Drive,
    pub start: usize,
    pub count: usize,
    pub landings: Landings,
}

/// The landing blocks of an image, upwards; places past their number are 0.
#[derive(Clone, Copy, PartialEq, Eq)]
pub struct Landings {
    number: usize,
    blocks: [u16; MOST_LANDINGS],
}

impl Landings {
    /// "Format 1 means no landing blocks".
    pub const NONE: Landings = Landings { number: 0, blocks: [0; MOST_LANDINGS] };

    pub fn blocks(&self) -> &[u16] {
        &self.blocks[..self.number]
    }

    /// Puts one block more into the list, or none where 21 refuses it: "not strictly ascending" or "not below the
    /// count".
    pub fn add(&mut self, block: usize, count: usize) -> Option<()> {
        let ascends = self.blocks().last().is_none_or(|last| block > *last as usize);
        if !ascends || block >= count {
            return None;
        }
        self.blocks[self.number] = block as u16;
        self.number += 1;
        Some(())
    }
}

impl std::fmt::Debug for Landings {
    fn fmt(&self, out: &mut std::fmt::Formatter) -> std::fmt::Result {
        self.blocks().fmt(out)
    }
}

/// A block: its code and D1 to D7.
pub type Block = [u8; BLOCK_LENGTH];

/// Bytes of one header number carry seven bits; the top bit says that another byte follows.
const GROUP: usize = 128;

/// One number: its value, the byte where it stands and the byte behind it.
pub struct Read {
    pub value: usize,
    at: usize,
    pub behind: usize,
}

/// "in groups of seven bits, low group first, the top bit set on every byte but the last, in the shortest form, at most
/// two bytes": 1 when the image ends, 2 for another form.
pub fn read_number(image: &[u8], at: usize) -> Result<Read, Verdict> {
    let early = Verdict::at(ENDS_EARLY, image.len());
    let first = *image.get(at).ok_or(early)? as usize;
    if first < GROUP {
        return Ok(Read { value: first, at, behind: at + 1 });
    }
    let second = *image.get(at + 1).ok_or(early)? as usize;
    if second == 0 || second >= GROUP {
        return Err(Verdict::at(NOT_SHORTEST, at));
    }
    Ok(Read { value: first - GROUP + GROUP * second, at, behind: at + 2 })
}

/// A number that must lie within a range: 3 at its first byte when it doesn't.
fn read_within(image: &[u8], at: usize, least: u32, most: u32) -> Result<Read, Verdict> {
    let read = read_number(image, at)?;
    if (least as usize..=most as usize).contains(&read.value) {
        Ok(read)
    } else {
        Err(Verdict::at(BAD_HEADER, read.at))
    }
}

/// "Header numbers are read and judged in order, start after count", and the landing list behind them: the header and
/// the first byte of the blocks.
pub fn read_header(image: &[u8]) -> Result<(Header, usize), Verdict> {
    let format = read_within(image, 0, FORMAT, FORMAT_LANDINGS)?;
    let kind = read_within(image, format.behind, 0, TYPE_637F)?;
    let board = most_board(kind.value as u32);
    let slot_b = read_within(image, kind.behind, 0, board)?;
    let slot_c = read_within(image, slot_b.behind, 0, board)?;
    let start = read_number(image, slot_c.behind)?;
    let count = read_within(image, start.behind, 1, MOST_BLOCKS as u32)?;
    if start.value >= count.value {
        return Err(Verdict::at(BAD_HEADER, start.at));
    }
    let format = format.value as u32;
    let (landings, behind) = match format {
        FORMAT => (Landings::NONE, count.behind),
        _ => read_landings(image, count.behind, count.value)?,
    };
    let drive = Drive { kind: kind.value as u32, slot_b: slot_b.value as u32, slot_c: slot_c.value as u32 };
    Ok((Header { format, drive, start: start.value, count: count.value, landings }, behind))
}

/// Change request 1: the landing count and the landing blocks, each judged by 21 at its first byte once it is read; and
/// the byte behind them.
fn read_landings(image: &[u8], at: usize, count: usize) -> Result<(Landings, usize), Verdict> {
    let number = read_number(image, at)?;
    if number.value > MOST_LANDINGS {
        return Err(Verdict::at(BAD_LANDINGS, number.at));
    }
    let (mut landings, mut behind) = (Landings::NONE, number.behind);
    for _ in 0..number.value {
        let block = read_number(image, behind)?;
        landings.add(block.value, count).ok_or(Verdict::at(BAD_LANDINGS, block.at))?;
        behind = block.behind;
    }
    Ok((landings, behind))
}

/// "then the length by 1 or 4": the header and the stretch of the blocks.
pub fn read(image: &[u8]) -> Result<(Header, &[u8]), Verdict> {
    let (header, first) = read_header(image)?;
    let end = first + BLOCK_LENGTH * header.count;
    if image.len() < end {
        Err(Verdict::at(ENDS_EARLY, image.len()))
    } else if image.len() > end {
        Err(Verdict::at(LEFT_OVER, end))
    } else {
        Ok((header, &image[first..end]))
    }
}

/// One block of the stretch.
pub fn block(blocks: &[u8], number: usize) -> &Block {
    let first = BLOCK_LENGTH * number;
    blocks[first..first + BLOCK_LENGTH].try_into().expect("a block has eight bytes")
}

/// How many bytes a header number takes.
fn width(value: u32) -> usize {
    if (value as usize) < GROUP { 1 } else { 2 }
}

/// The writer's header, in the writer's words: numbers of any size.
#[derive(Clone, Copy, Debug)]
pub struct Wanted {
    pub format: u32,
    pub kind: u32,
    pub slot_b: u32,
    pub slot_c: u32,
    pub start: u32,
    pub count: u32,
}

impl Wanted {
    fn numbers(&self) -> [u32; 6] {
        [self.format, self.kind, self.slot_b, self.slot_c, self.start, self.count]
    }

    /// "The writer gives 3 for a header (the byte where that number would stand, a start of 128 or more taking two)";
    /// in the reader's order, so the count before the start. Each writer has its own format.
    fn judge(&self, format: u32) -> Result<(), Verdict> {
        let start_at = 4;
        let count_at = start_at + width(self.start);
        let board = most_board(self.kind);
        let bad = |place| Err(Verdict::at(BAD_HEADER, place));
        if self.format != format {
            bad(0)
        } else if self.kind > TYPE_637F {
            bad(1)
        } else if self.slot_b > board {
            bad(2)
        } else if self.slot_c > board {
            bad(3)
        } else if self.count < 1 || self.count > MOST_BLOCKS as u32 {
            bad(count_at)
        } else if self.start >= self.count {
            bad(start_at)
        } else {
            Ok(())
        }
    }
}

/// Writes an image of format 1: 3, then 1 or 4 for the stretch of the blocks, then 14. It does not judge blocks.
pub fn write(wanted: &Wanted, blocks: &[u8], out: &mut [u8]) -> Verdict {
    match wanted.judge(FORMAT) {
        Err(refused) => refused,
        Ok(()) => write_behind(&wanted.numbers(), wanted.count, blocks, out),
    }
}

/// Writes an image of format 2: 3, then 21, then as format 1. Landing blocks are lent in two bytes each, low byte
/// first. "The format 2 writer judges the landing list with the header, as the reader does, a place being where that
/// number would stand"; half a landing block is refused where the landing count would stand.
pub fn write_landings(wanted: &Wanted, landings: &[u8], blocks: &[u8], out: &mut [u8]) -> Verdict {
    if let Err(refused) = wanted.judge(FORMAT_LANDINGS) {
        return refused;
    }
    let mut numbers = wanted.numbers().to_vec();
    let number = landings.len() / 2;
    if landings.len() % 2 == 1 || number > MOST_LANDINGS {
        return Verdict::at(BAD_LANDINGS, length_of(&numbers));
    }
    numbers.push(number as u32);
    let mut list = Landings::NONE;
    for bytes in landings.chunks_exact(2) {
        let block = u16::from_le_bytes([bytes[0], bytes[1]]);
        if list.add(block as usize, wanted.count as usize).is_none() {
            return Verdict::at(BAD_LANDINGS, length_of(&numbers));
        }
        numbers.push(block as u32);
    }
    write_behind(&numbers, wanted.count, blocks, out)
}

/// How many bytes numbers take one behind the other.
fn length_of(numbers: &[u32]) -> usize {
    numbers.iter().map(|number| width(*number)).sum()
}

/// Writes blocks behind numbers that are good: 1 or 4 for the stretch of the blocks, then 14.
/// "A successful write reports its length and leaves the bytes behind it."
fn write_behind(numbers: &[u32], count: u32, blocks: &[u8], out: &mut [u8]) -> Verdict {
    let stretch = BLOCK_LENGTH * count as usize;
    if blocks.len() < stretch {
        return Verdict::at(ENDS_EARLY, blocks.len());
    }
    if blocks.len() > stretch {
        return Verdict::at(LEFT_OVER, blocks.len());
    }
    let header = length_of(numbers);
    let length = header + stretch;
    if out.len() < length {
        return Verdict::at(ROOM_SHORT, length);
    }
    write_numbers(numbers, out);
    out[header..length].copy_from_slice(blocks);
    Verdict::at(SUCCESS, length)
}

/// Numbers in their shortest form.
fn write_numbers(numbers: &[u32], out: &mut [u8]) {
    let mut at = 0;
    for number in numbers {
        let value = *number as usize;
        if value < GROUP {
            out[at] = value as u8;
        } else {
            out[at] = (GROUP + value % GROUP) as u8;
            out[at + 1] = (value / GROUP) as u8;
        }
        at += width(*number);
    }
}
