//! The C border of include/bias.h over the reference. Built as a stand-in for the library (`--cfg stand_in`) the four
//! functions have the library's names; otherwise `reference_load`, `reference_step`, `reference_write` and
//! `reference_write_landings`, so that both can stand in one program.

use crate::answer::{Answer, Verdict};
use crate::engine::{step, Given};
use crate::image::{write, write_landings, Wanted};
use crate::loader::load;
use std::slice::{from_raw_parts, from_raw_parts_mut};

/// A lent stretch; of one without bytes the pointer is not looked at.
unsafe fn lent<'a>(bytes: *const u8, length: usize) -> &'a [u8] {
    if length == 0 { &[] } else { unsafe { from_raw_parts(bytes, length) } }
}

/// A lent stretch that may be written.
unsafe fn lent_out<'a>(bytes: *mut u8, length: usize) -> &'a mut [u8] {
    if length == 0 { &mut [] } else { unsafe { from_raw_parts_mut(bytes, length) } }
}

/// # Safety
/// Pointers and lengths are those of real buffers that don't overlap.
#[cfg_attr(stand_in, export_name = "bias_load")]
#[cfg_attr(not(stand_in), export_name = "reference_load")]
pub unsafe extern "C" fn c_load(
    image: *const u8, image_len: usize, marks: *mut u8, marks_len: usize, state: *mut u8, state_len: usize,
) -> Verdict {
    unsafe { load(lent(image, image_len), lent_out(marks, marks_len), lent_out(state, state_len)) }
}

/// # Safety
/// Pointers and lengths are those of real buffers that don't overlap.
#[cfg_attr(stand_in, export_name = "bias_step")]
#[cfg_attr(not(stand_in), export_name = "reference_step")]
pub unsafe extern "C" fn c_step(
    image: *const u8, image_len: usize, state: *mut u8, state_len: usize, task: u32, inputs: *const u8,
    inputs_len: usize, start_input: u8, ramp_ended: u8, in_window: u8,
) -> Answer {
    unsafe {
        let given = Given { inputs: lent(inputs, inputs_len), start: start_input, ramp_ended, in_window };
        step(lent(image, image_len), lent_out(state, state_len), task, given)
    }
}

/// # Safety
/// Pointers and lengths are those of real buffers that don't overlap.
#[cfg_attr(stand_in, export_name = "bias_write")]
#[cfg_attr(not(stand_in), export_name = "reference_write")]
pub unsafe extern "C" fn c_write(
    format: u32, kind: u32, slot_b: u32, slot_c: u32, start: u32, count: u32, blocks: *const u8, blocks_len: usize,
    out: *mut u8, out_len: usize,
) -> Verdict {
    let wanted = Wanted { format, kind, slot_b, slot_c, start, count };
    unsafe { write(&wanted, lent(blocks, blocks_len), lent_out(out, out_len)) }
}

/// # Safety
/// Pointers and lengths are those of real buffers that don't overlap.
#[cfg_attr(stand_in, export_name = "bias_write_landings")]
#[cfg_attr(not(stand_in), export_name = "reference_write_landings")]
pub unsafe extern "C" fn c_write_landings(
    format: u32, kind: u32, slot_b: u32, slot_c: u32, start: u32, count: u32, landings: *const u8, landings_len: usize,
    blocks: *const u8, blocks_len: usize, out: *mut u8, out_len: usize,
) -> Verdict {
    let wanted = Wanted { format, kind, slot_b, slot_c, start, count };
    unsafe {
        write_landings(&wanted, lent(landings, landings_len), lent(blocks, blocks_len), lent_out(out, out_len))
    }
}
