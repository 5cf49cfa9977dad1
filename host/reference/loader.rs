//! Load: document 01's refusals 13, 16, 1 to 4, 5 to 8 and 23, then walks; an accepted image leaves a fresh state.

use crate::answer::Verdict;
use crate::image::{self, Header};
use crate::number::*;
use crate::state::{State, STATE_LENGTH};
use crate::{command, walk};

/// Judges an image and, when it is accepted, writes the state that a run begins with. A refused load leaves the state
/// as it was.
pub fn load(image: &[u8], marks: &mut [u8], state: &mut [u8]) -> Verdict {
    if marks.len() < MARKS_LENGTH {
        return Verdict::at(MARKS_SHORT, marks.len());
    }
    let Ok(state) = <&mut [u8; STATE_LENGTH]>::try_from(state) else {
        return Verdict::at(NO_STATE, 0);
    };
    let (header, blocks) = match image::read(image) {
        Err(refused) => return refused,
        Ok(read) => read,
    };
    let verdict = judge_program(&header, blocks, marks);
    if verdict.number == SUCCESS {
        State::fresh(state, &header);
    }
    verdict
}

/// "Blocks are judged upwards, 5 before 6, 7, 8", with 23 in the place of 6; then what walks say.
fn judge_program(header: &Header, blocks: &[u8], marks: &mut [u8]) -> Verdict {
    for number in 0..header.count {
        let refusal = command::judge(header, image::block(blocks, number));
        if refusal != SUCCESS {
            return Verdict::at(refusal, number);
        }
    }
    walk::judge(header, blocks, marks)
}
