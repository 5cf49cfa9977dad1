//! The papers' own examples: A to L and the chains of calls of document 01 with its answers, or those of change
//! request 6 where it changes them; those of change requests 1, 2, 3, 4 and 6; starts at the ends of each length of a
//! number; layout numbers and states of the layout before; and images cut at every length. Done on the library and on
//! the reference alike.

use crate::case::{Action, Case, Player};
use crate::program;
use crate::random::Random;
use crate::tally::Tally;
use crate::writer::Writing;
use reference::engine::Given;
use reference::hex::bytes_of;
use reference::image::{self, Wanted};
use reference::number::*;
use reference::state::{record, State, DEPTH, ENDED, HALTED, PATH, RUNNING, STATE_LENGTH};
use reference::{Answer, Verdict};

/// Name, image in hexadecimal, and number, place, task, depth.
type Row = (&'static str, &'static str, [u64; 4]);

const CASES: [Row; 45] = [
    ("A", "010200000001 5500000000000000", [0, 0, 0, 0]),
    ("B", "010200000001 5000000000000000", [12, 0, 0, 0]),
    ("C", "010200000101 5500000000000000", [3, 4, 0, 0]),
    ("D", "010200000002 5200000000000000 5300000000000000", [10, 0, 0, 5]),
    ("E", "010200000204 5000000000000000 5300000000000000 5200000000000000 5500000000000000", [11, 1, 0, 0]),
    ("F", "010200000003 2010270000000000 5400000000000000 5500000000000000", [9, 0, 1, 0]),
    ("G", "010200000002 1F0100FA00000000 5500000000000000", [0, 0, 0, 0]),
    ("H", "010200000002 1F0101FA00000000 5500000000000000", [7, 0, 0, 0]),
    ("I, refused", "010200000002 7208010000000000 5500000000000000", [6, 0, 0, 0]),
    ("I, accepted", "010200000002 720C010000000000 5500000000000000", [0, 0, 0, 0]),
    ("K, not shortest", "0102000000 8000 5500000000000000", [2, 5, 0, 0]),
    ("start FF 00", "01020000 FF00 01 5500000000000000", [2, 4, 0, 0]),
    ("above, in a later task", "010200000003 5401000000000000 2000000000000000 5000000000000000", [9, 1, 1, 0]),
    (
        "one block in two tasks",
        "010200000004 5403000000000000 5203000000000000 5502000000000000 5000000000000000",
        [12, 3, 0, 1],
    ),
    ("output 217, board missing", "010200000002 72D9010000000000 5500000000000000", [23, 0, 0, 0]),
    ("output 217, board fitted", "010200010002 72D9010000000000 5500000000000000", [0, 0, 0, 0]),
    ("output 217 on a 631", "010000000002 72D9010000000000 5500000000000000", [6, 0, 0, 0]),
    ("output 125 on a 637", "010200000002 727D010000000000 5500000000000000", [6, 0, 0, 0]),
    ("output 125, slot empty", "010400000002 727D010000000000 5500000000000000", [23, 0, 0, 0]),
    ("output 125, another board", "010401000002 727D010000000000 5500000000000000", [23, 0, 0, 0]),
    ("input 101, board missing", "010200000002 6300650000000000 5500000000000000", [23, 0, 0, 0]),
    ("input 101 as an output", "010200000002 7265010000000000 5500000000000000", [6, 0, 0, 0]),
    ("output 217 = 2", "010200000002 72D9020000000000 5500000000000000", [23, 0, 0, 0]),
    ("6E on a 637+", "010300000002 6E00000000000000 5500000000000000", [6, 0, 0, 0]),
    ("format 3", "030200000001 5500000000000000", [3, 0, 0, 0]),
    ("56 behind a landing list", "02020000 00 02 01 01 5600000000000000 5501000000000000", [0; 4]),
    ("a landing block set", "02020000 00 03 01 02 8000020000000000 5600000000000000 5502000000000000", [0; 4]),
    ("no landing blocks in format 2", "02020000 00 01 00 5600000000000000", [0; 4]),
    ("65 landing blocks, and the end", "02020000 00 01 41", [21, 6, 0, 0]),
    ("landing count not shortest", "02020000 00 01 8000", [2, 6, 0, 0]),
    ("no landing count", "02020000 00 01", [1, 6, 0, 0]),
    ("no landing block", "02020000 00 02 01", [1, 7, 0, 0]),
    ("landing blocks 1, 1", "02020000 00 02 02 01 01", [21, 8, 0, 0]),
    ("landing blocks 1, 0", "02020000 00 02 02 01 00", [21, 8, 0, 0]),
    ("a landing block at the count", "02020000 00 02 01 02", [21, 7, 0, 0]),
    ("a landing block past the end, not shortest", "02020000 00 02 01 8200", [2, 7, 0, 0]),
    ("a start past the end before the list", "02020000 05 02 01 02", [3, 4, 0, 0]),
    ("a landing block of two bytes", "02020000 8001 8101 01 8101", [21, 9, 0, 0]),
    ("56 in format 1", "01020000 00 01 5600000000000000", [0; 4]),
    (
        "56 in a call",
        "02020000 00 04 01 03 5202000000000000 5501000000000000 5600000000000000 5300000000000000",
        [0; 4],
    ),
    (
        "56 in no call",
        "02020000 02 04 01 03 5202000000000000 5501000000000000 5600000000000000 5300000000000000",
        [11, 3, 0, 0],
    ),
    (
        "5B by the PLC",
        "02020000 00 04 01 00 5402000000000000 5501000000000000 5B00000000000000 5503000000000000",
        [0; 4],
    ),
    (
        "5B at the end",
        "02020000 00 03 01 00 5402000000000000 5501000000000000 5B00000000000000",
        [12, 2, 1, 0],
    ),
    ("5B by BIAS", "02020000 00 02 01 00 5B00000000000000 5500000000000000", [9, 0, 0, 0]),
    (
        "5B leads to depth 0",
        "02020000 00 05 01 04 5402000000000000 5501000000000000 5B00000000000000 5503000000000000 5300000000000000",
        [11, 4, 0, 0],
    ),
];

/// Writes of format 2 on a 637: start, count, landing blocks as bytes, bytes of blocks, and number and place.
const WRITES: [(&str, [u32; 2], &str, usize, [u64; 2]); 9] = [
    ("a good list of one", [0, 200], "7F00", 1600, [0, 1609]),
    ("landings 127 128 128", [0, 200], "7F00 8000 8000", 1600, [21, 11]),
    ("half a landing block", [0, 200], "7F00 80", 1600, [21, 7]),
    ("blocks one byte short", [0, 200], "7F00", 1599, [1, 1599]),
    ("blocks one byte long", [0, 200], "7F00", 1601, [4, 1601]),
    ("a landing block at the count", [0, 200], "0000 C800", 1600, [21, 9]),
    ("a landing block of 16 bits", [0, 200], "FFFF", 1600, [21, 8]),
    ("a start past the end before the list", [200, 200], "C800", 1600, [3, 4]),
    ("no landing blocks", [128, 200], "", 1600, [0, 1609]),
];

/// A step of a task with the start input high or low; number, place, task, depth of its answer; then BIAS's status,
/// block, depth and noted start level.
type Jumped = (u32, u8, [u64; 4], [u64; 4]);

const RUNS: u64 = RUNNING as u64;
const ENDS: u64 = ENDED as u64;
const HALTS: u64 = HALTED as u64;

/// Change request 1, and the rulings on it: a sentence, a header with its landing list, the blocks' codes and operands,
/// the steps.
const JUMPS: [(&str, &str, &str, &[Jumped]); 14] = [
    ("56 halts by 22 and notes the start level, then 18", "02020000 00 02 01 01", "56 5501", &[
        (0, 0, [22, 0, 0, 0], [HALTS, 0, 0, 0]), (0, 1, [18, 0, 0, 0], [HALTS, 0, 0, 0]),
    ]),
    ("56 halts by 22 and notes a high start level", "02020000 00 03 01 02", "50 56 5502", &[
        (0, 0, [0; 4], [RUNS, 1, 0, 0]), (0, 1, [22, 1, 0, 0], [HALTS, 1, 0, 1]),
    ]),
    ("56 lands", "02020000 00 03 01 02", "800002 56 5502", &[
        (0, 0, [0; 4], [RUNS, 1, 0, 0]), (0, 0, [0; 4], [RUNS, 2, 0, 0]),
    ]),
    ("56 lands on the last of several", "02020000 00 05 03 02 03 04", "800004 56 55 55 5504", &[
        (0, 0, [0; 4], [RUNS, 1, 0, 0]), (0, 0, [0; 4], [RUNS, 4, 0, 0]),
    ]),
    ("a block beside the listed ones is no landing block", "02020000 00 05 02 02 04", "800003 56 55 55 5504", &[
        (0, 0, [0; 4], [RUNS, 1, 0, 0]), (0, 0, [22, 1, 0, 0], [HALTS, 1, 0, 0]),
    ]),
    ("-1 is no landing block, and 22 is not 20", "02020000 00 03 01 02", "8000FFFFFFFF 56 5502", &[
        (0, 0, [0; 4], [RUNS, 1, 0, 0]), (0, 0, [22, 1, 0, 0], [HALTS, 1, 0, 0]),
    ]),
    ("65536 and a landing block is none", "02020000 00 03 01 02", "800002000100 56 5502", &[
        (0, 0, [0; 4], [RUNS, 1, 0, 0]), (0, 0, [22, 1, 0, 0], [HALTS, 1, 0, 0]),
    ]),
    ("56 always halts in format 1", "01020000 00 01", "56", &[(0, 0, [22, 0, 0, 0], [HALTS, 0, 0, 0])]),
    ("56 lands at its own depth", "02020000 00 05 01 04", "800004 5203 5502 56 53", &[
        (0, 0, [0; 4], [RUNS, 1, 0, 0]), (0, 0, [0; 4], [RUNS, 3, 1, 0]), (0, 0, [0; 4], [RUNS, 4, 1, 0]),
        (0, 0, [0; 4], [RUNS, 2, 0, 0]),
    ]),
    ("5B starts an ended BIAS, whose start stays", "02020000 00 07 01 05", "5402 5101 800005 5B 5504 50 5100", &[
        (0, 1, [0; 4], [RUNS, 1, 0, 1]), (0, 1, [0; 4], [ENDS, 1, 0, 1]), (1, 0, [0; 4], [ENDS, 1, 0, 1]),
        (1, 0, [0; 4], [RUNS, 5, 0, 1]), (0, 0, [0; 4], [RUNS, 6, 0, 0]), (0, 0, [0; 4], [RUNS, 0, 0, 0]),
    ]),
    ("5B starts a halted BIAS", "02020000 00 06 01 05", "5402 5601 800005 5B 5504 5505", &[
        (0, 1, [0; 4], [RUNS, 1, 0, 1]), (0, 0, [22, 1, 0, 0], [HALTS, 1, 0, 0]), (1, 1, [0; 4], [HALTS, 1, 0, 0]),
        (1, 1, [0; 4], [RUNS, 5, 0, 0]), (0, 0, [0; 4], [RUNS, 5, 0, 0]),
    ]),
    ("5B takes BIAS out of a call and a wait", "02020000 00 09 01 08", "9005 5203 5502 590A 53 800008 5B 5507 5100", &[
        (0, 0, [0; 4], [RUNS, 1, 0, 0]), (0, 0, [0; 4], [RUNS, 3, 1, 0]), (0, 0, [0; 4], [RUNS, 3, 1, 0]),
        (2, 0, [0; 4], [RUNS, 3, 1, 0]), (2, 0, [0; 4], [RUNS, 8, 0, 0]), (0, 0, [0; 4], [RUNS, 0, 0, 0]),
    ]),
    ("a refused 5B halts the PLC and leaves BIAS", "02020000 00 04 02 01 03", "5402 5501 5B 5503", &[
        (0, 0, [0; 4], [RUNS, 1, 0, 0]), (1, 1, [22, 2, 1, 0], [RUNS, 1, 0, 0]), (1, 1, [18, 0, 0, 0], [RUNS, 1, 0, 0]),
        (0, 0, [0; 4], [RUNS, 1, 0, 0]),
    ]),
    ("a 5B refused in a call halts mathematics there", "02020000 00 06 01 01", "9002 5501 5204 5503 5B07 53", &[
        (0, 0, [0; 4], [RUNS, 1, 0, 0]), (2, 0, [0; 4], [RUNS, 1, 0, 0]), (2, 0, [22, 4, 2, 1], [RUNS, 1, 0, 0]),
        (2, 0, [18, 0, 0, 0], [RUNS, 1, 0, 0]),
    ]),
];

/// What somebody writes into the state of "56 lands on the last of several" before its first step, and the number of that
/// step: the landing list counts as part of the header.
const LISTED: [(&str, &[(usize, u8)], u32); 12] = [
    ("no change", &[], 0),
    ("a landing count of 65", &[(1545, 65)], 16),
    ("a landing count of 255", &[(1545, 255)], 16),
    ("an entry past the count", &[(1552, 1)], 16),
    ("the last entry, past the count", &[(1673, 1)], 16),
    ("a landing count of 2, the third entry left", &[(1545, 2)], 16),
    ("the same in format 1", &[(1537, 1)], 16),
    ("two entries alike", &[(1548, 2)], 16),
    ("descending entries", &[(1546, 4)], 16),
    ("an entry at the count", &[(1550, 5)], 16),
    ("another list", &[(1546, 1)], 17),
    ("a shorter list", &[(1545, 2), (1550, 0)], 17),
];

/// Images lent to the first step of the same program, and the number of that step.
const OTHER_LISTS: [(&str, u32); 4] = [
    ("02020000 00 05 03 02 03 04", 0),
    ("02020000 00 05 03 01 03 04", 17),
    ("02020000 00 05 02 03 04", 17),
    ("01020000 00 05", 17),
];

/// What is lent to the first step after a load of case I's accepted image, and number, place, task, depth of that step:
/// an output on a missing board, one that is never there, and one that is there (change request 3).
const LENT: [(&str, [u64; 4]); 3] = [
    ("010200000002 72D9010000000000 5500000000000000", [17, 0, 0, 0]),
    ("010200000002 7208010000000000 5500000000000000", [17, 0, 0, 0]),
    ("010200000002 720D010000000000 5500000000000000", [0, 0, 0, 0]),
];

/// Start and count as an image has them, the count, and number, place, task, depth: each start is at an end of a length.
/// A start is refused with a count that equals it and accepted with one more, as far as counts go.
const STARTS: [(&str, usize, [u64; 4]); 7] = [
    ("00 01", 1, [0; 4]),
    ("7F 7F", 127, [3, 4, 0, 0]),
    ("7F 8001", 128, [0; 4]),
    ("8001 8001", 128, [3, 4, 0, 0]),
    ("8001 8101", 129, [0; 4]),
    ("FF7F DC0B", 1500, [3, 4, 0, 0]),
    ("FF7F FF7F", 16383, [3, 6, 0, 0]),
];

/// Bytes of marks, and number, place, task, depth of case A's load with them (change request 6). Too many are fine.
const MARKS: [(usize, [u64; 4]); 3] = [(26_999, [13, 26_999, 0, 0]), (27_000, [0; 4]), (40_500, [0; 4])];

/// Depth of BIAS, which of its return entries is block 1 (the others 0), and the number of its step (change request 6).
const DEPTHS: [(u8, usize, u32); 5] = [(5, 4, 0), (6, 4, 16), (255, 4, 16), (4, 3, 0), (4, 4, 16)];

/// Where the layout number stands and what it is, as docs/STATE.md has them.
const NUMBERED: (usize, u8) = (1536, 5);

/// What somebody writes there, and the number of the step on it.
const LAYOUTS: [(u8, u32); 8] = [(5, 0), (4, 16), (3, 16), (2, 16), (1, 16), (0, 16), (6, 16), (255, 16)];

/// Where the note of a move stands, as docs/STATE.md has it.
const NOTED: usize = 1686;

/// Where the landing count and the landing list stand, as docs/STATE.md has them; the layout before, which had number 4,
/// had none.
const LISTED_AT: std::ops::Range<usize> = 1545..1674;
const LAYOUT_BEFORE: u8 = 4;

/// A step with nothing high.
const LOW: Given<'static> = Given { inputs: &[0; INPUTS_LENGTH], start: 0, ramp_ended: 0, in_window: 0 };

/// One step of a case of change request 4, and what it comes to: number, BIAS's block and the note of a move after it.
#[derive(Clone, Copy)]
struct Told {
    task: u32,
    start: u8,
    bits: [u8; 2],
    inputs_len: usize,
    /// A byte of the state that somebody else writes before the step; what it leaves is kept unless it was refused.
    poke: Option<(usize, u8)>,
    wanted: [u32; 3],
}

/// A step of a task with both bits given and the start input low.
const fn by(task: u32, wanted: [u32; 3]) -> Told {
    Told { task, start: 0, bits: [1, 1], inputs_len: INPUTS_LENGTH, poke: None, wanted }
}

/// One of BIAS.
const fn bias(wanted: [u32; 3]) -> Told {
    by(0, wanted)
}

/// One of BIAS with these for ramp ended and in window.
const fn with(bits: [u8; 2], wanted: [u32; 3]) -> Told {
    Told { bits, ..bias(wanted) }
}

/// One of BIAS on a state in which somebody else has written a byte.
const fn on(at: usize, byte: u8, wanted: [u32; 3]) -> Told {
    Told { poke: Some((at, byte)), ..bias(wanted) }
}

/// One of BIAS with so many inputs.
const fn lent_inputs(inputs_len: usize, wanted: [u32; 3]) -> Told {
    Told { inputs_len, ..bias(wanted) }
}

/// One of BIAS with the start input high.
const fn started(wanted: [u32; 3]) -> Told {
    Told { start: 1, ..bias(wanted) }
}

/// Change request 4, and the ruling on what it leaves open: a sentence, the blocks' codes and operands, the steps.
const WAITS: [(&str, &str, &[Told]); 17] = [
    ("right behind 00 a 58 stays once", "0E 00 58 5502", &[
        bias([0, 1, 0]), bias([0, 2, 1]), bias([0, 2, 0]), bias([0, 3, 0]), bias([0, 2, 0]), bias([0, 3, 0]),
    ]),
    ("right behind 01 a 58 stays once", "0E 01 58 5502", &[
        bias([0, 1, 0]), bias([0, 2, 1]), bias([0, 2, 0]), bias([0, 3, 0]),
    ]),
    ("right behind 03 a 58 stays once", "0E 03 58 5502", &[
        bias([0, 1, 0]), bias([0, 2, 1]), bias([0, 2, 0]), bias([0, 3, 0]),
    ]),
    ("right behind 04 a 58 stays once", "0E 04 58 5502", &[
        bias([0, 1, 0]), bias([0, 2, 1]), bias([0, 2, 0]), bias([0, 3, 0]),
    ]),
    ("right behind a move by the start input's slope a 58 stays once", "00 58 5500", &[
        bias([0, 0, 0]), started([0, 1, 1]), started([0, 1, 0]), started([0, 2, 0]),
    ]),
    ("with no move since load, both bits alone decide: passes at once", "58 5500", &[bias([0, 1, 0])]),
    ("58 passes when both are true: not by one bit alone", "58 5500", &[
        with([1, 0], [0, 0, 0]), with([0, 1], [0, 0, 0]), with([0, 0], [0, 0, 0]), with([255, 128], [0, 1, 0]),
    ]),
    ("a PLC step between move and 58: it still stays once", "5405 0E 00 58 5503 50 5505", &[
        bias([0, 1, 0]), bias([0, 2, 0]), bias([0, 3, 1]), by(1, [0, 3, 1]), bias([0, 3, 0]), bias([0, 4, 0]),
    ]),
    ("a stop of the PLC between: it still stays once", "5405 0E 00 58 5503 0F01 5505", &[
        bias([0, 1, 0]), bias([0, 2, 0]), bias([0, 3, 1]), by(1, [0, 3, 1]), bias([0, 3, 0]), bias([0, 4, 0]),
    ]),
    ("a step of mathematics between: it still stays once", "9005 0E 00 58 5503 50 5505", &[
        bias([0, 1, 0]), bias([0, 2, 0]), bias([0, 3, 1]), by(2, [0, 3, 1]), bias([0, 3, 0]), bias([0, 4, 0]),
    ]),
    ("steps refused by 15, 16, 17 and 18 between: it still stays once", "0E 00 58 5502", &[
        bias([0, 1, 0]), bias([0, 2, 1]), lent_inputs(255, [15, 2, 1]), lent_inputs(257, [15, 2, 1]), by(3, [15, 2, 1]),
        by(1, [18, 2, 1]), on(1024, 2, [16, 2, 1]), on(1538, 3, [17, 2, 1]), bias([0, 2, 0]), bias([0, 3, 0]),
    ]),
    ("a move, then 8D by 0 (19) and a step refused by 18, then the PLC's 57 to a 58: it stays once",
     "5406 0E 00 8D000102 58 5505 5704 5507", &[
        bias([0, 1, 0]), bias([0, 2, 0]), bias([0, 3, 1]), started([19, 3, 1]), bias([18, 3, 1]), by(1, [0, 4, 1]),
        bias([0, 4, 0]), bias([0, 5, 0]),
    ]),
    ("a move, then 31 by 0 (20), then the PLC's 57 to a 58: it stays once", "5406 0E 00 3101 58 5505 5704 5507", &[
        bias([0, 1, 0]), bias([0, 2, 0]), bias([0, 3, 1]), bias([20, 3, 1]), by(1, [0, 4, 1]), bias([0, 4, 0]),
        bias([0, 5, 0]),
    ]),
    ("57 leaves the note: a move, then the PLC's 57 to a 58: it stays once", "5406 0E 00 5503 58 5505 5704 5507", &[
        bias([0, 1, 0]), bias([0, 2, 0]), bias([0, 3, 1]), by(1, [0, 4, 1]), bias([0, 4, 0]), bias([0, 5, 0]),
    ]),
    ("a move that waits is no move: the PLC's 57 to a 58, which passes at once", "5406 0E 00 01 58 5505 5704 5507", &[
        bias([0, 1, 0]), bias([0, 2, 0]), bias([0, 3, 1]), bias([0, 3, 0]), by(1, [0, 4, 0]), bias([0, 5, 0]),
    ]),
    ("a stop is no move: a 58 behind 0F or 1F passes at once", "0E 00 0F01 58 0E 03 1F0100FA 58 5500", &[
        bias([0, 1, 0]), bias([0, 2, 1]), bias([0, 3, 0]), bias([0, 4, 0]), bias([0, 5, 0]), bias([0, 6, 1]),
        bias([0, 7, 0]), bias([0, 8, 0]),
    ]),
    ("the note is 0 or 1, else 16; 1 makes a 58 stay once", "58 5500", &[
        on(NOTED, 2, [16, 0, 0]), on(NOTED, 255, [16, 0, 0]), on(NOTED, 1, [0, 0, 0]), bias([0, 1, 0]),
    ]),
];

fn case(image: Vec<u8>, actions: Vec<Action>) -> Case {
    Case { image, marks_len: MARKS_LENGTH, state_len: STATE_LENGTH, fill: 0x5A, actions }
}

/// The case on both sides, and the load's answer as the paper has it.
fn expect(name: &str, image: Vec<u8>, wanted: [u64; 4], tally: &mut Tally) -> Result<(), String> {
    expect_with(MARKS_LENGTH, name, image, wanted, tally)
}

/// The same with so many bytes of marks.
fn expect_with(
    marks_len: usize,
    name: &str,
    image: Vec<u8>,
    wanted: [u64; 4],
    tally: &mut Tally,
) -> Result<(), String> {
    let Verdict { place, number, task, depth } =
        reference::load(&image, &mut vec![0; marks_len], &mut vec![0; STATE_LENGTH]);
    let got = [number as u64, place, task as u64, depth as u64];
    if got != wanted {
        return Err(format!("case {name}: the reference says {got:?}, the papers {wanted:?}"));
    }
    let both = Case { marks_len, ..case(image, Vec::new()) };
    both.run(tally).map_err(|difference| format!("case {name}: {}", difference.what))
}

pub fn check(tally: &mut Tally) -> Result<(), String> {
    for (name, image, wanted) in CASES {
        expect(name, bytes_of(image), wanted, tally)?;
    }
    for (numbers, count, wanted) in STARTS {
        expect(&format!("start and count {numbers}"), jumps(numbers, count), wanted, tally)?;
    }
    expect("K, 1500 blocks", longest(), [0; 4], tally)?;
    expect("5 nested calls", nested(5), [0; 4], tally)?;
    expect("6 nested calls", nested(6), [10, 5, 0, 5], tally)?;
    for (marks_len, wanted) in MARKS {
        expect_with(marks_len, &format!("A, {marks_len} bytes of marks"), bytes_of(CASES[0].1), wanted, tally)?;
    }
    lent(tally)?;
    writes(tally)?;
    jumps_by_variable(tally)?;
    lists(tally)?;
    waits(tally)?;
    depths(tally)?;
    layouts(tally)?;
    wait_ends("J, type 2", "02", 527, tally)?;
    wait_ends("J, type 4", "04", 1185, tally)?;
    quotient(tally)?;
    every_length(tally)
}

/// DC 0B is 1500: that many jumps.
fn longest() -> Vec<u8> {
    jumps("00 DC0B", MOST_BLOCKS)
}

/// That many jumps to block 0 behind a start and a count.
fn jumps(numbers: &str, count: usize) -> Vec<u8> {
    let mut image = bytes_of(&format!("01020000 {numbers}"));
    for _ in 0..count {
        image.extend(bytes_of("5500000000000000"));
    }
    image
}

/// A chain of calls, each block calling the one behind it, down to a jump to itself.
fn nested(calls: u8) -> Vec<u8> {
    let mut image = vec![1, 2, 0, 0, 0, calls + 1];
    for call in 0..calls {
        image.extend([0x52, call + 1, 0, 0, 0, 0, 0, 0]);
    }
    image.extend([0x55, calls, 0, 0, 0, 0, 0, 0]);
    image
}

/// A step on another image than the loaded one.
fn lent(tally: &mut Tally) -> Result<(), String> {
    let image = bytes_of("010200000002 720C010000000000 5500000000000000");
    for (other, wanted) in LENT {
        let mut state = vec![0; STATE_LENGTH];
        reference::load(&image, &mut vec![0; MARKS_LENGTH], &mut state);
        let Answer { number, place, task, depth, .. } = reference::step(&bytes_of(other), &mut state, 0, LOW);
        let got = [number as u64, place, task as u64, depth as u64];
        if got != wanted {
            return Err(format!("lent {other}: the reference says {got:?}, the papers {wanted:?}"));
        }
        let step = Action { lent: Some(bytes_of(other)), ..Action::plain(0) };
        let both = case(image.clone(), vec![step]).run(tally);
        both.map_err(|difference| format!("lent {other}: {}", difference.what))?;
    }
    Ok(())
}

/// An image of a 637 with these blocks, unused bytes left out.
fn program_of(blocks: &str) -> Vec<u8> {
    let count = blocks.split(' ').count();
    image_of(&format!("0102000000{count:02X}"), blocks)
}

/// An image of a header and blocks, unused bytes left out.
fn image_of(header: &str, blocks: &str) -> Vec<u8> {
    let mut image = bytes_of(header);
    for block in blocks.split(' ') {
        image.extend(bytes_of(&format!("{block:0<16}")));
    }
    image
}

/// The writer of format 2; each writer refuses the other's format, and 65 landing blocks.
fn writes(tally: &mut Tally) -> Result<(), String> {
    let writing = |format: u32, numbers: [u32; 2], landings: Option<Vec<u8>>, length: usize| {
        let wanted = Wanted { format, kind: 2, slot_b: 0, slot_c: 0, start: numbers[0], count: numbers[1] };
        Writing { wanted, landings, blocks: vec![0x50; length], room: 2000, fill: 0xC3 }
    };
    let mut told = |name: &str, writing: Writing, wanted: [u64; 2]| {
        let mut out = vec![0; writing.room];
        let verdict = match &writing.landings {
            None => image::write(&writing.wanted, &writing.blocks, &mut out),
            Some(landings) => image::write_landings(&writing.wanted, landings, &writing.blocks, &mut out),
        };
        let got = [verdict.number as u64, verdict.place];
        if got != wanted {
            return Err(format!("a write, {name}: the reference says {got:?}, the papers {wanted:?}"));
        }
        writing.run(tally).map_err(|what| format!("a write, {name}: {what}"))
    };
    for (name, numbers, landings, length, wanted) in WRITES {
        told(name, writing(2, numbers, Some(bytes_of(landings)), length), wanted)?;
    }
    let upwards = |number: u16| (0..number).flat_map(u16::to_le_bytes).collect::<Vec<u8>>();
    told("64 landing blocks", writing(2, [0, 200], Some(upwards(64)), 1600), [0, 1672])?;
    told("65 landing blocks", writing(2, [0, 200], Some(upwards(65)), 1600), [21, 7])?;
    for format in [0, 1, 3] {
        told("another format", writing(format, [0, 200], Some(upwards(1)), 1600), [3, 0])?;
    }
    told("format 2 by the writer of format 1", writing(2, [0, 200], None, 1600), [3, 0])?;
    told("format 1", writing(1, [0, 200], None, 1600), [0, 1607])?;
    put_together(&writing(2, [0, 2], Some(upwards(2)), 16), "0202000000 02 02 00 01")
}

/// The bytes of a written image begin like this, and the blocks come right behind.
fn put_together(writing: &Writing, front: &str) -> Result<(), String> {
    let mut out = vec![0; writing.room];
    let landings = writing.landings.as_deref().unwrap_or(&[]);
    let length = image::write_landings(&writing.wanted, landings, &writing.blocks, &mut out).place as usize;
    let mut wanted = bytes_of(front);
    wanted.extend(&writing.blocks);
    if out[..length] == wanted { Ok(()) } else { Err("a write of format 2: other bytes".to_string()) }
}

/// 56, 5B and 22, step by step.
fn jumps_by_variable(tally: &mut Tally) -> Result<(), String> {
    for (sentence, header, blocks, steps) in JUMPS {
        let image = image_of(header, blocks);
        let mut state = vec![0; STATE_LENGTH];
        reference::load(&image, &mut vec![0; MARKS_LENGTH], &mut state);
        let mut actions = Vec::new();
        for (number, (task, start, answer, bias)) in steps.iter().enumerate() {
            let got = reference::step(&image, &mut state, *task, Given { start: *start, ..LOW });
            let told = [got.number as u64, got.place, got.task as u64, got.depth as u64];
            let now = State::of(&mut state).map_or([u64::MAX; 4], |state| {
                let depth = state.depth(BIAS) as u64;
                [state.status(BIAS) as u64, state.block(BIAS) as u64, depth, state.start_level() as u64]
            });
            if (told, now) != (*answer, *bias) {
                return Err(format!("{sentence}, step {number}: the reference says {told:?} and BIAS {now:?}"));
            }
            actions.push(Action { start: *start, ..Action::plain(*task) });
        }
        case(image, actions).run(tally).map_err(|difference| format!("{sentence}: {}", difference.what))?;
    }
    Ok(())
}

/// 16 and 17 by the landing list.
fn lists(tally: &mut Tally) -> Result<(), String> {
    let blocks = "800004 56 55 55 5504";
    let image = image_of(OTHER_LISTS[0].0, blocks);
    let mut steps: Vec<(String, Action, u32)> = Vec::new();
    for (name, pokes, wanted) in LISTED {
        steps.push((name.to_string(), Action { pokes: pokes.to_vec(), ..Action::plain(0) }, wanted));
    }
    for (header, wanted) in OTHER_LISTS {
        let lent = Some(image_of(header, blocks));
        steps.push((format!("lent {header}"), Action { lent, ..Action::plain(0) }, wanted));
    }
    for (name, action, wanted) in steps {
        let mut player = Player { state: vec![0; STATE_LENGTH] };
        reference::load(&image, &mut vec![0; MARKS_LENGTH], &mut player.state);
        let got = player.play(&image, &action).answer.number;
        if got != wanted {
            return Err(format!("a landing list, {name}: the reference says {got}, the papers {wanted}"));
        }
        let both = case(image.clone(), vec![action]).run(tally);
        both.map_err(|difference| format!("a landing list, {name}: {}", difference.what))?;
    }
    Ok(())
}

/// 58 and the note of a move, step by step.
fn waits(tally: &mut Tally) -> Result<(), String> {
    for (sentence, blocks, steps) in WAITS {
        let image = program_of(blocks);
        let mut player = Player { state: vec![0; STATE_LENGTH] };
        reference::load(&image, &mut vec![0; MARKS_LENGTH], &mut player.state);
        let mut actions = Vec::new();
        for (number, told) in steps.iter().enumerate() {
            let action = Action {
                start: told.start,
                ramp_ended: told.bits[0],
                in_window: told.bits[1],
                inputs_len: told.inputs_len,
                pokes: told.poke.into_iter().collect(),
                keep: true,
                ..Action::plain(told.task)
            };
            let answer = player.play(&image, &action).answer.number;
            let block = State::of(&mut player.state).map_or(u32::MAX, |state| state.block(BIAS) as u32);
            let got = [answer, block, player.state[NOTED] as u32];
            let wanted = told.wanted;
            if got != wanted {
                return Err(format!("{sentence}, step {number}: the reference says {got:?}, the papers {wanted:?}"));
            }
            actions.push(action);
        }
        case(image, actions).run(tally).map_err(|difference| format!("{sentence}: {}", difference.what))?;
    }
    Ok(())
}

/// A state may be 5 deep; its return entries past the depth are 0.
fn depths(tally: &mut Tally) -> Result<(), String> {
    let image = bytes_of("010200000002 5000000000000000 5500000000000000");
    for (depth, entry, wanted) in DEPTHS {
        let pokes = vec![(record(BIAS) + DEPTH, depth), (record(BIAS) + PATH + 2 * entry, 1)];
        let mut state = vec![0; STATE_LENGTH];
        reference::load(&image, &mut vec![0; MARKS_LENGTH], &mut state);
        for (at, byte) in &pokes {
            state[*at] = *byte;
        }
        let got = reference::step(&image, &mut state, 0, LOW).number;
        if got != wanted {
            return Err(format!("a state of depth {depth}, entry {entry}: the reference says {got}"));
        }
        let step = Action { pokes, ..Action::plain(0) };
        let both = case(image.clone(), vec![step]).run(tally);
        both.map_err(|difference| format!("a state of depth {depth}, entry {entry}: {}", difference.what))?;
    }
    Ok(())
}

/// A step on a state with another layout number is refused, and so is one on a state of the layout before.
fn layouts(tally: &mut Tally) -> Result<(), String> {
    let (at, number) = NUMBERED;
    let image = bytes_of("010200000002 5000000000000000 5500000000000000");
    for (layout, wanted) in LAYOUTS {
        for steps in [0, 1] {
            let name = format!("layout number {layout} after {steps} steps");
            remade(&name, &image, steps, &|state| state[at] = layout, wanted, tally)?;
        }
    }
    remade("a loaded state of the layout before", &image, 0, &move_back, 16, tally)?;
    remade("a state of the layout before", &image, 1, &move_back, 16, tally)?;
    let with_number = |state: &mut Vec<u8>| {
        move_back(state);
        state[at] = number;
    };
    remade("the same with the layout number", &image, 1, &with_number, 16, tally)
}

/// As the layout before had it: its own layout number, no landing list, and all behind that one back. Where this layout
/// has the speed the one before had unused bytes, so none of its states is one of this but for its number.
fn move_back(state: &mut Vec<u8>) {
    state.drain(LISTED_AT);
    state.resize(STATE_LENGTH, 0);
    state[NUMBERED.0] = LAYOUT_BEFORE;
}

/// The layout number stands where it has to.
fn numbered(name: &str, state: &[u8], when: &str) -> Result<(), String> {
    let (at, number) = NUMBERED;
    if state[at] == number { Ok(()) } else { Err(format!("{name}: byte {at} is {} after {when}", state[at])) }
}

/// The state after a load and steps of BIAS on the reference.
fn begun(name: &str, image: &[u8], steps: usize) -> Result<Vec<u8>, String> {
    let mut state = vec![0; STATE_LENGTH];
    reference::load(image, &mut vec![0; MARKS_LENGTH], &mut state);
    numbered(name, &state, "the load")?;
    for step in 1..=steps {
        let got = reference::step(image, &mut state, 0, LOW).number;
        if got != SUCCESS {
            return Err(format!("{name}: the reference says {got} at step {step}"));
        }
        numbered(name, &state, &format!("step {step}"))?;
    }
    Ok(state)
}

/// A load and steps of BIAS, then one on what somebody makes of the state. What is refused stays as it was.
fn remade(
    name: &str,
    image: &[u8],
    steps: usize,
    remake: &dyn Fn(&mut Vec<u8>),
    wanted: u32,
    tally: &mut Tally,
) -> Result<(), String> {
    let state = begun(name, image, steps)?;
    let mut lent = state.clone();
    remake(&mut lent);
    let mut left = lent.clone();
    let got = reference::step(image, &mut left, 0, LOW).number;
    if got != wanted {
        return Err(format!("{name}: the reference says {got}, the papers {wanted}"));
    }
    if wanted == SUCCESS {
        numbered(name, &left, "the last step")?;
    } else if left != lent {
        return Err(format!("{name}: the reference refused the state and wrote it"));
    }
    let pokes = (0..STATE_LENGTH).filter(|at| lent[*at] != state[*at]).map(|at| (at, lent[at])).collect();
    let mut actions = vec![Action::plain(0); steps];
    actions.push(Action { pokes, ..Action::plain(0) });
    let both = case(image.to_vec(), actions).run(tally);
    both.map_err(|difference| format!("{name}: {}", difference.what))
}

/// A wait of 1000 ms passes at this k and not before.
fn wait_ends(name: &str, kind: &str, turns: usize, tally: &mut Tally) -> Result<(), String> {
    let image = bytes_of(&format!("01{kind}00000002 59F4010000000000 5501000000000000"));
    let steps = vec![Action::plain(0); turns + 1];
    let mut state = vec![0; STATE_LENGTH];
    reference::load(&image, &mut vec![0; MARKS_LENGTH], &mut state);
    for turn in 0..=turns {
        let at = State::of(&mut state).map(|state| state.block(BIAS));
        if at != Some(0) {
            return Err(format!("case {name}: passed before k = {turn}"));
        }
        reference::step(&image, &mut state, 0, LOW);
    }
    if State::of(&mut state).map(|state| state.block(BIAS)) != Some(1) {
        return Err(format!("case {name}: did not pass at k = {turns}"));
    }
    case(image, steps).run(tally).map_err(|difference| format!("case {name}: {}", difference.what))
}

/// L: -7 by 2 is -3; and -2^31 by -1 wraps.
fn quotient(tally: &mut Tally) -> Result<(), String> {
    for (dividend, divisor, wanted) in [(-7i32, 2i32, -3i32), (i32::MIN, -1, i32::MIN)] {
        let mut image = bytes_of("010200000003");
        image.extend([0x80, 0]);
        image.extend(dividend.to_le_bytes());
        image.extend([0, 0, 0x85, 1, 0]);
        image.extend(divisor.to_le_bytes());
        image.extend(bytes_of("00 5502000000000000"));
        let mut state = vec![0; STATE_LENGTH];
        reference::load(&image, &mut vec![0; MARKS_LENGTH], &mut state);
        reference::step(&image, &mut state, 0, LOW);
        reference::step(&image, &mut state, 0, LOW);
        if State::of(&mut state).map(|state| state.variable(1)) != Some(wanted) {
            return Err(format!("case L: {dividend} by {divisor}"));
        }
        let steps = vec![Action::plain(0); 2];
        case(image, steps).run(tally).map_err(|difference| format!("case L: {}", difference.what))?;
    }
    Ok(())
}

/// The longest image there is: the most blocks, a start of two bytes, and the most landing blocks of two bytes each.
fn longest_listed() -> Vec<u8> {
    let mut image = bytes_of("02020000 8001 DC0B 40");
    image.extend((128..128 + MOST_LANDINGS).flat_map(|block| [128 + (block % 128) as u8, (block / 128) as u8]));
    for _ in 0..MOST_BLOCKS {
        image.extend(bytes_of("5600000000000000"));
    }
    image
}

/// A short program and two long ones cut at every length, and with bytes behind them.
fn every_length(tally: &mut Tally) -> Result<(), String> {
    let short = program::accepted(&mut Random::of_case(1, 1));
    let mut listed = longest_listed();
    expect("the longest image", listed.clone(), [0; 4], tally)?;
    listed.push(0);
    expect("a byte more than the longest image", listed.clone(), [4, 12_137, 0, 0], tally)?;
    for length in (0..listed.len()).step_by(97).chain(0..150) {
        let cut = case(listed[..length].to_vec(), Vec::new());
        cut.run(tally).map_err(|difference| format!("the longest image cut at {length}: {}", difference.what))?;
    }
    let mut image = longest();
    image.resize(12_100, 0);
    for length in (0..image.len()).step_by(7).chain(0..64).chain(11_990..12_100) {
        let cut = case(image[..length].to_vec(), Vec::new());
        cut.run(tally).map_err(|difference| format!("1500 blocks cut at {length}: {}", difference.what))?;
    }
    for length in 0..short.len() {
        let cut = case(short[..length].to_vec(), Vec::new());
        cut.run(tally).map_err(|difference| format!("a program cut at {length}: {}", difference.what))?;
    }
    Ok(())
}
