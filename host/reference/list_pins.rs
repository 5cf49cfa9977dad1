//! The reference's pins of every drive, board by board, as the program `vectors` prints them: those present, those of a
//! missing board with a question mark, and how many are present.

use reference::drive::{most_board, Drive, Presence, TYPE_637F};

fn row(name: &str, drive: Drive, presence: fn(&Drive, u8) -> Presence) {
    let Drive { kind, slot_b, slot_c } = drive;
    print!("type {kind} B {slot_b} C {slot_c} {name}");
    let mut present = 0;
    for pin in 0..=255 {
        match presence(&drive, pin) {
            Presence::Present => {
                print!(" {pin}");
                present += 1;
            }
            Presence::OnBoard => print!(" {pin}?"),
            Presence::Never => (),
        }
    }
    println!(": {present}");
}

fn main() {
    for kind in 0..=TYPE_637F {
        for slot_b in 0..=most_board(kind) {
            for slot_c in 0..=most_board(kind) {
                let drive = Drive { kind, slot_b, slot_c };
                row("inputs", drive, Drive::input);
                row("written", drive, Drive::written_output);
                row("read", drive, Drive::read_output);
            }
        }
    }
}
