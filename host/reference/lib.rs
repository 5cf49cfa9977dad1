//! An independent reference for BIAS programs: load, step and write, bytes in and bytes out.
//! Written from document 01, the manual (000, 001), the command table and the rulings; not from the proved library.
//! Safe code except in `border`, which is the only file that sees pointers.

pub mod answer;
pub mod border;
pub mod command;
pub mod drive;
pub mod effect;
pub mod engine;
pub mod hex;
pub mod image;
pub mod loader;
pub mod number;
pub mod state;
pub mod walk;

pub use answer::{Answer, Verdict};
pub use engine::step;
pub use image::{write, write_landings};
pub use loader::load;
