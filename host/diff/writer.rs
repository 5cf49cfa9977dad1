//! The two writers compared: headers in and out of range, landing lists, stretches and rooms of every length.

use crate::library::{self, Guarded};
use crate::random::Random;
use crate::tally::Tally;
use reference::image::{self, Wanted};
use reference::number::*;

#[derive(Clone)]
pub struct Writing {
    pub wanted: Wanted,
    /// Bytes of a landing list for the writer of format 2; none for that of format 1.
    pub landings: Option<Vec<u8>>,
    pub blocks: Vec<u8>,
    pub room: usize,
    pub fill: u8,
}

pub fn random_writing(random: &mut Random) -> Writing {
    let count = random.pick(&[0, 1, 2, 3, 9, 127, 128, 129, 200, 1499, 1500, 1501, 16384, u32::MAX]);
    let count = if random.chance(60) { random.between(1, 20) as u32 } else { count };
    let start = match random.below(10) {
        0 => random.pick(&[127, 128, 1499, 1500, 16383, 16384, u32::MAX]),
        1 => count,
        2 => count.wrapping_sub(1),
        _ => random.below(count.clamp(1, 1500) as usize) as u32,
    };
    let with_list = random.chance(60);
    let format = if with_list { FORMAT_LANDINGS } else { FORMAT };
    let board = |random: &mut Random| if random.chance(90) { 0 } else { random.pick(&[1, 2, 3, u32::MAX]) };
    let wanted = Wanted {
        format: if random.chance(95) { format } else { random.pick(&[0, 1, 2, 3, 129, u32::MAX]) },
        kind: if random.chance(95) { random.below(5) as u32 } else { random.pick(&[5, 6, 128, u32::MAX]) },
        slot_b: board(random),
        slot_c: board(random),
        start,
        count,
    };
    let exact = BLOCK_LENGTH * count.min(2000) as usize;
    let length = match random.below(10) {
        0 => exact.saturating_sub(random.between(1, 8)),
        1 => exact + random.between(1, 8),
        _ => exact,
    };
    let landings = with_list.then(|| random_list(random, count));
    let needed = exact + 4 + width(start) + width(count) + landings.as_deref().map_or(0, list_width);
    let room = match random.below(10) {
        0 => 0,
        1 => random.below(needed),
        2..=3 => needed - 1,
        4..=6 => needed,
        _ => needed + random.between(1, 20),
    };
    let blocks = (0..length).map(|_| random.byte()).collect();
    Writing { wanted, landings, blocks, room, fill: random.byte() }
}

/// How many bytes a number takes in an image, and a landing list with its count.
fn width(number: u32) -> usize {
    if number < 128 { 1 } else { 2 }
}

fn list_width(landings: &[u8]) -> usize {
    let blocks = landings.chunks_exact(2).map(|bytes| u16::from_le_bytes([bytes[0], bytes[1]]));
    1 + blocks.map(|block| width(block as u32)).sum::<usize>()
}

/// The bytes of a landing list: most are good, others too long, of half a block, not ascending or past the count.
fn random_list(random: &mut Random, count: u32) -> Vec<u8> {
    let number = random.pick(&[0, 1, 2, 3, 5, 20, MOST_LANDINGS, MOST_LANDINGS, MOST_LANDINGS + 1, 200]);
    let limit = count.clamp(1, 2000) as usize;
    let mut list: Vec<u16> = if random.chance(50) {
        (limit.saturating_sub(number)..limit).map(|block| block as u16).collect()
    } else {
        (0..number).map(|_| random.below(limit) as u16).collect()
    };
    list.sort_unstable();
    list.dedup();
    let at = random.below(list.len().max(1));
    if let Some(block) = list.get(at).copied() {
        match random.below(10) {
            0 => list.insert(at, block),
            1 => list.swap(at, 0),
            2 => list[at] = random.pick(&[limit as u16, 0, 127, 128, 16383, 16384, u16::MAX]),
            3 => list.push(limit as u16),
            _ => (),
        }
    }
    let mut bytes: Vec<u8> = list.iter().flat_map(|block| block.to_le_bytes()).collect();
    if random.chance(6) {
        bytes.push(random.byte());
    }
    bytes
}

impl Writing {
    /// Which function of the border it is for.
    pub fn function(&self) -> &'static str {
        if self.landings.is_some() { "bias_write_landings" } else { "bias_write" }
    }

    pub fn run(&self, tally: &mut Tally) -> Result<(), String> {
        let mut ours = Guarded::of(&vec![self.fill; self.room]);
        let mut theirs = vec![self.fill; self.room];
        let (library, reference) = match &self.landings {
            None => (
                library::write(&self.wanted, &self.blocks, ours.inner()),
                image::write(&self.wanted, &self.blocks, &mut theirs),
            ),
            Some(landings) => (
                library::write_landings(&self.wanted, landings, &self.blocks, ours.inner()),
                image::write_landings(&self.wanted, landings, &self.blocks, &mut theirs),
            ),
        };
        tally.write(reference.number);
        if library != reference {
            return Err(format!("library {library:?}, reference {reference:?}"));
        }
        if ours.seen() != theirs {
            return Err("the written bytes differ".to_string());
        }
        if ours.intact() { Ok(()) } else { Err("library: wrote outside the buffer".to_string()) }
    }

    /// Fewer landing blocks, fewer blocks, all 0, while the two still differ.
    pub fn shrunk(&self) -> Writing {
        let mut best = self.clone();
        best.blocks.fill(0);
        if best.run(&mut Tally::new()).is_ok() {
            best = self.clone();
        }
        while let Some(landings) = best.landings.as_ref().filter(|landings| landings.len() >= 2) {
            let fewer = Writing { landings: Some(landings[2..].to_vec()), ..best.clone() };
            if fewer.run(&mut Tally::new()).is_ok() {
                break;
            }
            best = fewer;
        }
        for count in [1, 2, 3, 127, 128] {
            let mut smaller = best.clone();
            smaller.wanted.count = count;
            smaller.blocks.resize(BLOCK_LENGTH * count as usize, 0);
            if count < best.wanted.count && smaller.run(&mut Tally::new()).is_err() {
                return smaller;
            }
        }
        best
    }

    pub fn print(&self) {
        println!("{:?}, room {}, filled with {:02X}", self.wanted, self.room, self.fill);
        if let Some(landings) = &self.landings {
            println!("landings, {} bytes: {:02X?}", landings.len(), landings);
        }
        println!("blocks, {} bytes: {:02X?}", self.blocks.len(), self.blocks);
    }
}
