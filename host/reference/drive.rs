//! Document 01, "Drive and pins": types, boards, pins and cycle lengths.

/// A drive type with the boards in its slots.
#[derive(Clone, Copy, Debug, PartialEq, Eq)]
pub struct Drive {
    pub kind: u32,
    pub slot_b: u32,
    pub slot_c: u32,
}

/// "631 is 0, 635 is 1, 637 is 2, 637+ is 3, 637f is 4."
pub const TYPE_631: u32 = 0;
pub const TYPE_637_PLUS: u32 = 3;
pub const TYPE_637F: u32 = 4;

/// "Slot B: 0 empty, 1 RP-EA5, 2 RP-2C8 (type 4 only)."
pub const RP_EA5: u32 = 1;
pub const RP_2C8: u32 = 2;
/// "Slot C: 0 empty, 1 RP-EAE, 2 RP-SBT (type 4 only)."
pub const RP_EAE: u32 = 1;
pub const RP_SBT: u32 = 2;

/// The highest board number that a slot of this type takes; the numbers are the same for both slots.
pub fn most_board(kind: u32) -> u32 {
    match kind {
        TYPE_631 => 0,
        TYPE_637F => 2,
        _ => 1,
    }
}

/// Change request 3, the pin test: "present, on a board that this type could take in a slot, or never on this type".
#[derive(Clone, Copy, Debug, PartialEq, Eq)]
pub enum Presence {
    Present,
    OnBoard,
    Never,
}

impl Presence {
    /// A pin or command of the drive itself, which no board brings.
    fn own(there: bool) -> Presence {
        if there { Presence::Present } else { Presence::Never }
    }
}

impl Drive {
    /// "1,899 µs for types 0 to 2 and 844 µs for 3 and 4."
    pub fn cycle_length(&self) -> u64 {
        if self.kind < TYPE_637_PLUS { 1899 } else { 844 }
    }

    /// The manual at 5A: types 0 to 2 count in 2 ms (ruling 4).
    pub fn counts_in_two(&self) -> bool {
        self.kind < TYPE_637_PLUS
    }

    /// The notes at 6E leave the 637+ out (ruling 5).
    pub fn bit_jump(&self) -> Presence {
        Presence::own(self.kind != TYPE_637_PLUS)
    }

    /// "Inputs (001 at 63)".
    pub fn input(&self, pin: u8) -> Presence {
        if self.kind == TYPE_631 {
            return Presence::own(matches!(pin, 7..=10));
        }
        match pin {
            2 | 4 | 11 | 15 | 22 | 24 | 25 => Presence::Present,
            101 | 102 | 106..=108 => self.on_board(self.slot_b, RP_EA5),
            121..=124 => self.on_board(self.slot_b, RP_2C8),
            201..=208 | 211..=216 => self.on_board(self.slot_c, RP_EAE),
            91 | 93 => self.on_board(self.slot_c, RP_SBT),
            _ => Presence::Never,
        }
    }

    /// "Outputs written (000 at 72)"; 73 writes the same ones (ruling 12).
    pub fn written_output(&self, pin: u8) -> Presence {
        if self.kind == TYPE_631 {
            return Presence::own(matches!(pin, 5 | 6));
        }
        match pin {
            12 | 13 | 20 | 23 => Presence::Present,
            109 | 110 => self.on_board(self.slot_b, RP_EA5),
            125..=128 => self.on_board(self.slot_b, RP_2C8),
            209 | 210 | 217..=224 => self.on_board(self.slot_c, RP_EAE),
            _ => Presence::Never,
        }
    }

    /// "Outputs read (001 at 64) are these and, except on type 0, pin 8."
    pub fn read_output(&self, pin: u8) -> Presence {
        match pin {
            8 => Presence::own(self.kind != TYPE_631),
            _ => self.written_output(pin),
        }
    }

    /// A pin of a board, by what the board's slot holds; another board there can be exchanged (docs/DECISIONS.md).
    fn on_board(&self, held: u32, board: u32) -> Presence {
        if held == board {
            Presence::Present
        } else if board <= most_board(self.kind) {
            Presence::OnBoard
        } else {
            Presence::Never
        }
    }
}
