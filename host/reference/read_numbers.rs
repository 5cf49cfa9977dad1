//! The reference's number reader on lines of hexadecimal digits: prints what stands at the front of each, as the program `vectors` does.

use reference::hex::bytes_of;
use reference::image::read_number;
use reference::number::ENDS_EARLY;

fn main() {
    for line in std::io::stdin().lines() {
        match read_number(&bytes_of(&line.expect("a line")), 0) {
            Ok(read) => println!("number {} next {}", read.value, read.behind),
            Err(refusal) if refusal.number == ENDS_EARLY => println!("number ends early"),
            Err(_) => println!("number not shortest"),
        }
    }
}
