//! The reference's verdicts on lines of images in hexadecimal digits, and of each accepted one how many bytes its blocks
//! have and their weighted sum: what the program `images` prints.

use reference::hex::bytes_of;
use reference::image;
use reference::number::{MARKS_LENGTH, SUCCESS};
use reference::state::STATE_LENGTH;
use reference::Verdict;

/// Each place has a weight of its own: powers of 257, modulo the prime 65521.
fn sum(bytes: &[u8]) -> u64 {
    bytes.iter().fold(0, |sum, byte| (257 * sum + *byte as u64) % 65521)
}

fn main() {
    for line in std::io::stdin().lines() {
        let bytes = bytes_of(&line.expect("a line"));
        let Verdict { place, number, task, depth } =
            reference::load(&bytes, &mut vec![0; MARKS_LENGTH], &mut vec![0; STATE_LENGTH]);
        println!("refusal {number} place {place} task {task} depth {depth}");
        if number == SUCCESS {
            let (_, blocks) = image::read(&bytes).expect("an accepted image");
            println!("blocks {} sum {}", blocks.len(), sum(blocks));
        }
    }
}
