//! The numbers of the papers, each named once: limits, tasks, and document 01's refusals.

/// Document 01, "The image": "format (1)".
pub const FORMAT: u32 = 1;
/// Change request 1: "The image gets format 2: after the block count come a landing count of 0 to 64 and the landing
/// blocks."
pub const FORMAT_LANDINGS: u32 = 2;
pub const MOST_LANDINGS: usize = 64;
/// "block count (1 to 1500)".
pub const MOST_BLOCKS: usize = 1500;
/// "A block is a code byte and D1 to D7".
pub const BLOCK_LENGTH: usize = 8;
/// "BIAS, PLC, mathematics".
pub const TASKS: usize = 3;
/// Change request 6, "Make 5 the limit": the longest return path, and the greatest depth of a place.
pub const MOST_DEPTH: usize = 5;
/// A mark for each place: task, block, depth. "the marks need 27,000 bytes" (13).
pub const MARKS_LENGTH: usize = TASKS * MOST_BLOCKS * (MOST_DEPTH + 1);
/// "256 input levels, one byte for each pin number".
pub const INPUTS_LENGTH: usize = 256;

/// Task numbers of document 01, "Walks".
pub const BIAS: usize = 0;
pub const PLC: usize = 1;
pub const MATHEMATICS: usize = 2;

/// Ranges of document 01, "The commands carried".
pub const MOST_SPEED: u32 = 12_000;
pub const MOST_RAMP: u32 = 64_000;
/// The manual at 5A: "permissible variable content: 0...65535".
pub const MOST_VARIABLE_WAIT: i32 = 65_535;
/// The manual at 59: "0...131070 ms".
pub const MOST_WAIT: u32 = 131_070;

/// Document 01, "Refused because of the input".
pub const SUCCESS: u32 = 0;
pub const ENDS_EARLY: u32 = 1;
pub const NOT_SHORTEST: u32 = 2;
pub const BAD_HEADER: u32 = 3;
pub const LEFT_OVER: u32 = 4;
pub const BAD_CODE: u32 = 5;
pub const NOT_ON_DRIVE: u32 = 6;
pub const BAD_OPERAND: u32 = 7;
pub const UNUSED_NOT_ZERO: u32 = 8;
pub const FORBIDDEN: u32 = 9;
pub const TOO_DEEP: u32 = 10;
pub const NO_CALL: u32 = 11;
pub const PAST_END: u32 = 12;
pub const MARKS_SHORT: u32 = 13;
pub const ROOM_SHORT: u32 = 14;
pub const BAD_INPUTS: u32 = 15;

/// Document 01, "Refused because of the state".
pub const NO_STATE: u32 = 16;
pub const OTHER_IMAGE: u32 = 17;
pub const NOT_RUNNING: u32 = 18;
pub const ZERO_DIVISOR: u32 = 19;
pub const BAD_CONTENT: u32 = 20;

/// Change request 1: "21 when the landing list is not strictly ascending, is too long or names a block not below the
/// count", judged with the input; "22 when the variable holds no landing block, judged with 19 and 20".
pub const BAD_LANDINGS: u32 = 21;
pub const NO_LANDING: u32 = 22;

/// Change request 3; judged with the input.
pub const BOARD_MISSING: u32 = 23;
