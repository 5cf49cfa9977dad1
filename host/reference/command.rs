//! The 59 commands: which bytes each uses, which drive part it needs, the ranges of its operands, its tasks, and what
//! it may continue with. Judges one block by 5 to 8 (document 01, "Refused because of the input") and by change
//! request 3's 23.

use crate::drive::Presence;
use crate::image::{Block, Header};
use crate::number::*;

/// Which pin of the drive a command uses, and in which byte it stands (document 01, "Drive and pins").
#[derive(Clone, Copy, PartialEq, Eq)]
pub enum Pin {
    None,
    Input(usize),
    OutputRead(usize),
    OutputWritten(usize),
}

/// Where a command names a block.
#[derive(Clone, Copy, PartialEq, Eq)]
pub enum Address {
    None,
    /// Two bytes, low byte first, from this one on.
    From(usize),
    /// 81: the low half of D6 is the upper part, D7 the lower (ruling 6).
    Split,
}

/// One command. `used` counts D1 to D`used`; the bytes behind them are unused (8).
#[derive(Clone, Copy)]
pub struct Row {
    pub code: u8,
    pub used: usize,
    pub tasks: u8,
    pub pin: Pin,
    pub address: Address,
    pub next: bool,
}

/// Boxes of the manual's chapter 3, one bit for each task.
const B: u8 = 1 << BIAS;
const P: u8 = 1 << PLC;
const M: u8 = 1 << MATHEMATICS;
const ALL: u8 = B | P | M;

/// A command that needs no pin, names no block and may continue with the next one.
const fn plain(code: u8, used: usize, tasks: u8) -> Row {
    Row { code, used, tasks, pin: Pin::None, address: Address::None, next: true }
}

/// A command that uses a pin.
const fn with_pin(code: u8, used: usize, pin: Pin) -> Row {
    Row { pin, ..plain(code, used, ALL) }
}

/// A command that names a block and may continue with the next one as well.
const fn naming(code: u8, used: usize, tasks: u8, address: Address) -> Row {
    Row { address, ..plain(code, used, tasks) }
}

/// A command that never continues with the next block.
const fn turning(row: Row) -> Row {
    Row { next: false, ..row }
}

const ROWS: [Row; 59] = [
    plain(0x00, 2, B),                                                          // Move position
    plain(0x01, 2, B),                                                          // Move incremental position
    plain(0x03, 2, B),                                                          // Move infinite positive
    plain(0x04, 2, B),                                                          // Move infinite negative
    plain(0x0E, 0, B),                                                          // Start axis
    plain(0x0F, 2, B | P),                                                      // Stop axis
    plain(0x1F, 3, B | P),                                                      // Stop axis + parameter (ruling 1)
    plain(0x20, 4, B),                                                          // Position = const.
    plain(0x21, 2, B),                                                          // Speed = const.
    plain(0x22, 2, B),                                                          // Acceleration = const.
    plain(0x23, 2, B),                                                          // Deceleration = const.
    plain(0x30, 1, B),                                                          // Position = [variable X]
    plain(0x31, 1, B),                                                          // Speed = [variable X]
    plain(0x32, 1, B),                                                          // Acceleration = [variable X]
    plain(0x33, 1, B),                                                          // Deceleration = [variable X]
    plain(0x40, 1, ALL),                                                        // [Variable X] = position
    plain(0x41, 1, ALL),                                                        // [Variable X] = speed
    plain(0x42, 1, ALL),                                                        // [Variable X] = acceleration
    plain(0x43, 1, ALL),                                                        // [Variable X] = deceleration
    plain(0x50, 0, ALL),                                                        // NOP
    turning(plain(0x51, 1, ALL)),                                               // End of program
    naming(0x52, 2, ALL, Address::From(1)),                                     // Sub-program
    turning(plain(0x53, 0, ALL)),                                               // End of sub-program
    naming(0x54, 2, B | M, Address::From(1)),                                   // PLC-program
    turning(naming(0x55, 2, ALL, Address::From(1))),                            // Jump const.
    turning(plain(0x56, 1, ALL)),                                               // Jump [variable X]
    naming(0x57, 2, P | M, Address::From(1)),                                   // BIAS-execution pointer = const.
    plain(0x58, 0, B),                                                          // Wait for "position reached"
    plain(0x59, 2, B),                                                          // Wait time = const.
    plain(0x5A, 1, B),                                                          // Wait time = [variable X]
    plain(0x5B, 1, P | M),                                                      // BIAS-execution pointer = [variable X]
    plain(0x60, 2, ALL),                                                        // Flag X = const.
    naming(0x61, 5, ALL, Address::From(4)),                                     // If flag X ? const. then jump
    plain(0x62, 2, ALL),                                                        // Flag X = flag Y
    with_pin(0x63, 2, Pin::Input(2)),                                           // Flag X = input Y
    with_pin(0x64, 2, Pin::OutputRead(2)),                                      // Flag X = output Y
    plain(0x65, 3, ALL),                                                        // Flag X = flag Y & flag Z
    plain(0x66, 3, ALL),                                                        // Flag X = flag Y | flag Z
    plain(0x67, 3, ALL),                                                        // Flag X = flag Y ^ flag Z
    plain(0x68, 2, ALL),                                                        // Flag X = !flag Y
    naming(0x6E, 5, ALL, Address::From(4)),                                     // If [variable X]. bit Y ? const. then jump
    Row { pin: Pin::Input(1), ..naming(0x70, 5, ALL, Address::From(4)) },       // If input X ? const. then jump
    Row { pin: Pin::OutputRead(1), ..naming(0x71, 5, ALL, Address::From(4)) },  // If output X ? const. then jump
    with_pin(0x72, 2, Pin::OutputWritten(1)),                                   // Output X = const.
    with_pin(0x73, 2, Pin::OutputWritten(1)),                                   // Output X = flag Y
    plain(0x80, 5, ALL),                                                        // [Variable X] = const.
    naming(0x81, 7, ALL, Address::Split),                                       // If [variable X] ? const.
    plain(0x82, 6, ALL),                                                        // [Variable X] = [variable Y] + const.
    plain(0x83, 6, ALL),                                                        // [Variable X] = [variable Y] - const.
    plain(0x84, 6, ALL),                                                        // [Variable X] = [variable Y] * const.
    plain(0x85, 6, ALL),                                                        // [Variable X] = [variable Y] / const.
    plain(0x86, 3, B | P),                                                      // [Variable X] = flag Y
    plain(0x88, 2, ALL),                                                        // [Variable X] = [variable Y]
    naming(0x89, 5, ALL, Address::From(4)),                                     // If [variable X] ? [variable Y]
    plain(0x8A, 3, ALL),                                                        // [Variable X] = [variable Y] + [variable Z]
    plain(0x8B, 3, ALL),                                                        // [Variable X] = [variable Y] - [variable Z]
    plain(0x8C, 3, ALL),                                                        // [Variable X] = [variable Y] * [variable Z]
    plain(0x8D, 3, ALL),                                                        // [Variable X] = [variable Y] / [variable Z]
    naming(0x90, 2, B | P, Address::From(1)),                                   // Mathematic program
];

/// For each code byte the row that carries it, or none.
const INDEX: [Option<Row>; 256] = {
    let mut index = [None; 256];
    let mut at = 0;
    while at < ROWS.len() {
        index[ROWS[at].code as usize] = Some(ROWS[at]);
        at += 1;
    }
    index
};
static BY_CODE: [Option<Row>; 256] = INDEX;

/// All carried codes, upwards.
pub fn codes() -> impl Iterator<Item = u8> {
    ROWS.iter().map(|row| row.code)
}

/// The command of a code byte, or none when the code is not carried (5).
pub fn row(code: u8) -> Option<&'static Row> {
    BY_CODE[code as usize].as_ref()
}

/// Two bytes, low byte first.
pub fn word(block: &Block, at: usize) -> u16 {
    u16::from_le_bytes([block[at], block[at + 1]])
}

/// Four bytes, low byte first, signed.
pub fn long(block: &Block, at: usize) -> i32 {
    i32::from_le_bytes([block[at], block[at + 1], block[at + 2], block[at + 3]])
}

/// The condition of 81, in the upper half of D6.
pub fn condition_of_81(block: &Block) -> u8 {
    block[6] >> 4
}

impl Row {
    /// The block that the command names; 56 and 5B name none.
    pub fn named(&self, block: &Block) -> Option<u16> {
        match self.address {
            Address::None => None,
            Address::From(at) => Some(word(block, at)),
            Address::Split => Some(u16::from_le_bytes([block[7], block[6] & 0x0F])),
        }
    }

    /// The boxes of the manual's chapter 3.
    pub fn allowed(&self, task: usize) -> bool {
        self.tasks >> task & 1 == 1
    }

    /// What the drive says of the command and its pin.
    fn presence(&self, header: &Header, block: &Block) -> Presence {
        let drive = header.drive;
        match self.pin {
            Pin::None if self.code == 0x6E => drive.bit_jump(),
            Pin::None => Presence::Present,
            Pin::Input(at) => drive.input(block[at]),
            Pin::OutputRead(at) => drive.read_output(block[at]),
            Pin::OutputWritten(at) => drive.written_output(block[at]),
        }
    }

    /// 7: "other operand out of range, addresses at or above the count and a zero divisor in 85 included".
    fn in_range(&self, header: &Header, block: &Block) -> bool {
        let address = match self.named(block) {
            None => true,
            Some(named) => (named as usize) < header.count,
        };
        address && operands_in_range(block)
    }
}

/// The ranges of the operands besides addresses and pins; flags and variables are any byte.
fn operands_in_range(block: &Block) -> bool {
    let speed = 1..=MOST_SPEED;
    let ramp = 1..=MOST_RAMP;
    match block[0] {
        0x00 | 0x01 | 0x03 | 0x04 => block[1] == 0 && block[2] == 0,
        0x0F => block[1] <= 1 && block[2] == 0,
        0x1F => block[1] <= 1 && ramp.contains(&(word(block, 2) as u32)),
        0x21 => speed.contains(&(word(block, 1) as u32)),
        0x22 | 0x23 => ramp.contains(&(word(block, 1) as u32)),
        0x51 => block[1] <= 3,
        0x60 | 0x72 => block[2] <= 1,
        0x61 | 0x70 | 0x71 => block[2] <= 1 && block[3] <= 1,
        0x6E => block[2] <= 31 && block[3] <= 1,
        0x81 => condition_of_81(block) <= 7,
        0x85 => long(block, 3) != 0,
        0x86 => (1..=32).contains(&block[3]) && block[2] as u32 + block[3] as u32 <= 256,
        0x89 => block[2] <= 7,
        _ => true,
    }
}

/// 0, or the first of 5, 6, 7, 8 that a block breaks, 23 "in the place of 6": "when a pin of the kind that the command
/// uses belongs to a board not fitted that the type may carry".
pub fn judge(header: &Header, block: &Block) -> u32 {
    let Some(row) = row(block[0]) else {
        return BAD_CODE;
    };
    match row.presence(header, block) {
        Presence::Present => (),
        Presence::OnBoard => return BOARD_MISSING,
        Presence::Never => return NOT_ON_DRIVE,
    }
    if !row.in_range(header, block) {
        BAD_OPERAND
    } else if block[1 + row.used..].iter().any(|byte| *byte != 0) {
        UNUSED_NOT_ZERO
    } else {
        SUCCESS
    }
}
