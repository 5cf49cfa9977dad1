//! The library under test, called through its C border (include/bias.h), with guard bytes around what it may write.

use reference::engine::Given;
use reference::image::Wanted;
use reference::{Answer, Verdict};

extern "C" {
    fn bias_load(
        image: *const u8, image_len: usize, marks: *mut u8, marks_len: usize, state: *mut u8, state_len: usize,
    ) -> Verdict;
    fn bias_step(
        image: *const u8, image_len: usize, state: *mut u8, state_len: usize, task: u32, inputs: *const u8,
        inputs_len: usize, start_input: u8, ramp_ended: u8, in_window: u8,
    ) -> Answer;
    fn bias_write(
        format: u32, kind: u32, slot_b: u32, slot_c: u32, start: u32, count: u32, blocks: *const u8,
        blocks_len: usize, out: *mut u8, out_len: usize,
    ) -> Verdict;
    fn bias_write_landings(
        format: u32, kind: u32, slot_b: u32, slot_c: u32, start: u32, count: u32, landings: *const u8,
        landings_len: usize, blocks: *const u8, blocks_len: usize, out: *mut u8, out_len: usize,
    ) -> Verdict;
}

pub fn load(image: &[u8], marks: &mut [u8], state: &mut [u8]) -> Verdict {
    // SAFETY: pointers and lengths are those of slices, which don't overlap.
    unsafe {
        bias_load(image.as_ptr(), image.len(), marks.as_mut_ptr(), marks.len(), state.as_mut_ptr(), state.len())
    }
}

pub fn step(image: &[u8], state: &mut [u8], task: u32, given: Given) -> Answer {
    let Given { inputs, start, ramp_ended, in_window } = given;
    // SAFETY: as above.
    unsafe {
        bias_step(
            image.as_ptr(), image.len(), state.as_mut_ptr(), state.len(), task, inputs.as_ptr(), inputs.len(), start,
            ramp_ended, in_window,
        )
    }
}

pub fn write(wanted: &Wanted, blocks: &[u8], out: &mut [u8]) -> Verdict {
    let Wanted { format, kind, slot_b, slot_c, start, count } = *wanted;
    // SAFETY: as above.
    unsafe {
        bias_write(
            format, kind, slot_b, slot_c, start, count, blocks.as_ptr(), blocks.len(), out.as_mut_ptr(), out.len(),
        )
    }
}

pub fn write_landings(wanted: &Wanted, landings: &[u8], blocks: &[u8], out: &mut [u8]) -> Verdict {
    let Wanted { format, kind, slot_b, slot_c, start, count } = *wanted;
    // SAFETY: as above.
    unsafe {
        bias_write_landings(
            format, kind, slot_b, slot_c, start, count, landings.as_ptr(), landings.len(), blocks.as_ptr(),
            blocks.len(), out.as_mut_ptr(), out.len(),
        )
    }
}

const GUARD: usize = 64;
const PATTERN: u8 = 0xA5;

/// A buffer to lend, with guard bytes before and behind it.
pub struct Guarded {
    bytes: Vec<u8>,
    length: usize,
}

impl Guarded {
    pub fn of(content: &[u8]) -> Guarded {
        let mut bytes = vec![PATTERN; GUARD];
        bytes.extend_from_slice(content);
        bytes.extend_from_slice(&[PATTERN; GUARD]);
        Guarded { bytes, length: content.len() }
    }

    pub fn inner(&mut self) -> &mut [u8] {
        &mut self.bytes[GUARD..GUARD + self.length]
    }

    pub fn seen(&self) -> &[u8] {
        &self.bytes[GUARD..GUARD + self.length]
    }

    /// Whether nobody wrote outside the buffer.
    pub fn intact(&self) -> bool {
        let (before, rest) = self.bytes.split_at(GUARD);
        before.iter().chain(&rest[self.length..]).all(|byte| *byte == PATTERN)
    }
}
