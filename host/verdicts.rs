//! Runs a verdict program on each image of crates/images/stdin, once by standard input, and compares the line that it
//! prints with the stored one, and its exit status. The other lines of crates/images/stdout are of the blocks handed back.
//! Usage: verdicts PROGRAM REFUSED STDIN STDOUT, with REFUSED the exit status for a refused image

use reference::hex::bytes_of;
use std::fs;
use std::io::Write;
use std::process::{Command, ExitCode, Stdio};

/// What the program prints for an image, and its exit status. A program may leave the end of a long image unread.
fn judged(program: &str, image: &[u8]) -> (String, Option<i32>) {
    let mut child =
        Command::new(program).stdin(Stdio::piped()).stdout(Stdio::piped()).spawn().expect("the program runs");
    let _ = child.stdin.take().expect("its input").write_all(image);
    let output = child.wait_with_output().expect("its output");
    (String::from_utf8_lossy(&output.stdout).into_owned(), output.status.code())
}

fn main() -> ExitCode {
    let arguments: Vec<String> = std::env::args().skip(1).collect();
    let [program, refused, images, verdicts] = arguments.as_slice() else {
        eprintln!("usage: verdicts PROGRAM REFUSED STDIN STDOUT");
        return ExitCode::from(2);
    };
    let refused: i32 = refused.parse().expect("a status");
    let images = fs::read_to_string(images).expect("the images");
    let verdicts = fs::read_to_string(verdicts).expect("their verdicts");
    let mut expected = verdicts.lines().filter(|line| line.starts_with("refusal "));
    let (mut count, mut wrong) = (0, 0);
    for digits in images.lines() {
        count += 1;
        let line = expected.next().expect("a verdict for each image");
        let status = if line.starts_with("refusal 0 ") { 0 } else { refused };
        let got = judged(program, &bytes_of(digits));
        if got != (format!("{line}\n"), Some(status)) {
            wrong += 1;
            eprintln!("image {count}: expected {line:?}, status {status}; got {got:?}");
        }
    }
    println!("counted: {count} images, {wrong} wrong");
    if count > 0 && wrong == 0 { ExitCode::SUCCESS } else { ExitCode::FAILURE }
}
