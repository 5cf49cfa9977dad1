//! One case: an image, a load, and a list of steps, done on the library and on the reference side by side. Every answer
//! field, motion request, state byte and untouched byte is compared.

use crate::ends;
use crate::library::{self, Guarded};
use crate::tally::Tally;
use reference::engine::Given;
use reference::image::{self, Header};
use reference::number::*;
use reference::state::{State, NO_WAIT, STATE_LENGTH};
use reference::Answer;
use std::fmt::Debug;

/// One step, and what somebody does to its buffers before it.
#[derive(Clone, Default)]
pub struct Action {
    pub task: u32,
    /// Input pins that are not 0, with their bytes.
    pub inputs: Vec<(u8, u8)>,
    pub inputs_len: usize,
    pub start: u8,
    pub ramp_ended: u8,
    pub in_window: u8,
    /// Bytes of the state that somebody else writes before the step.
    pub pokes: Vec<(usize, u8)>,
    /// Whether the state after the step is kept although somebody else wrote it; else the one before is put back.
    pub keep: bool,
    pub state_len: usize,
    /// Another image lent for this step alone.
    pub lent: Option<Vec<u8>>,
}

impl Action {
    /// A step with nothing odd about it.
    pub fn plain(task: u32) -> Action {
        Action { task, inputs_len: INPUTS_LENGTH, state_len: STATE_LENGTH, ..Action::default() }
    }

    fn levels(&self) -> Vec<u8> {
        let mut inputs = vec![0; self.inputs_len];
        for (pin, level) in &self.inputs {
            if let Some(byte) = inputs.get_mut(*pin as usize) {
                *byte = *level;
            }
        }
        inputs
    }

    fn given<'a>(&self, inputs: &'a [u8]) -> Given<'a> {
        Given { inputs, start: self.start, ramp_ended: self.ramp_ended, in_window: self.in_window }
    }
}

#[derive(Clone)]
pub struct Case {
    pub image: Vec<u8>,
    pub marks_len: usize,
    pub state_len: usize,
    /// What the marks and the state hold before the load.
    pub fill: u8,
    pub actions: Vec<Action>,
}

/// Where library and reference differ, in words; `action` counts steps from 0, none for the load.
pub struct Difference {
    pub action: Option<usize>,
    pub what: String,
}

type Checked = Result<(), String>;

fn same<T: PartialEq + Debug>(what: &str, library: T, reference: T) -> Checked {
    if library == reference {
        return Ok(());
    }
    Err(format!("{what}: library {library:?}, reference {reference:?}"))
}

/// Names the first byte that differs.
fn same_bytes(what: &str, library: &[u8], reference: &[u8]) -> Checked {
    match library.iter().zip(reference).position(|(ours, theirs)| ours != theirs) {
        None => same(&format!("{what}, length"), library.len(), reference.len()),
        Some(at) => Err(format!("{what}, byte {at}: library {}, reference {}", library[at], reference[at])),
    }
}

fn held(what: &str, holds: bool) -> Checked {
    if holds { Ok(()) } else { Err(format!("library: {what}")) }
}

/// One step of the reference on a state that others may write: what the answer is, and what it leaves.
pub struct Player {
    pub state: Vec<u8>,
}

/// Where a task stood before a step.
#[derive(Clone, Copy)]
pub struct Stood {
    pub code: u8,
    pub block: u16,
    /// Whether the note of a move was set.
    pub moved: bool,
    /// The content of the variable that the command reads within a range.
    pub content: Option<i32>,
    /// The header of the lent image, and whether its landing list alone is not the loaded one's.
    pub header: Header,
    pub relisted: bool,
    /// BIAS: its status, its depth, and whether a wait was pending.
    pub bias: (u8, usize, bool),
}

/// What a step of the player met.
pub struct Played {
    pub answer: Answer,
    /// Where the task stood, when there is such a thing.
    pub before: Option<Stood>,
    /// The state after the step, when what is left is another one: what somebody else wrote was taken back.
    pub taken_back: Option<Vec<u8>>,
}

impl Player {
    /// The state that a step is to be done on: other bytes, another length.
    fn prepare(&mut self, action: &Action) {
        for (at, byte) in &action.pokes {
            if let Some(place) = self.state.get_mut(*at) {
                *place = *byte;
            }
        }
        self.state.resize(action.state_len, 0);
    }

    /// The step. What somebody else wrote is taken back unless it is to be kept and the step was not refused by it.
    pub fn play(&mut self, image: &[u8], action: &Action) -> Played {
        let odd = !action.pokes.is_empty() || action.state_len != self.state.len();
        let saved = odd.then(|| self.state.clone());
        self.prepare(action);
        let image = action.lent.as_deref().unwrap_or(image);
        let before = stood(image, &mut self.state, action.task);
        let inputs = action.levels();
        let answer = reference::step(image, &mut self.state, action.task, action.given(&inputs));
        let refused = matches!(answer.number, NO_STATE | OTHER_IMAGE | BAD_INPUTS);
        let taken_back = match saved {
            Some(saved) if !action.keep || refused => Some(std::mem::replace(&mut self.state, saved)),
            _ => None,
        };
        Played { answer, before, taken_back }
    }
}

/// Both sides of a case: the library's state with guards, the reference's own.
struct Sides {
    image: Vec<u8>,
    library: Guarded,
    reference: Player,
}

impl Case {
    /// Does the case on both sides.
    pub fn run(&self, tally: &mut Tally) -> Result<(), Difference> {
        let mut sides = self.load(tally).map_err(|what| Difference { action: None, what })?;
        for (number, action) in self.actions.iter().enumerate() {
            sides.act(action, tally).map_err(|what| Difference { action: Some(number), what })?;
        }
        let untouched = held("the image was written", sides.image == self.image);
        untouched.map_err(|what| Difference { action: None, what })
    }

    fn load(&self, tally: &mut Tally) -> Result<Sides, String> {
        let image = self.image.clone();
        let mut marks = Guarded::of(&vec![self.fill; self.marks_len]);
        let mut library = Guarded::of(&vec![self.fill; self.state_len]);
        let mut state = vec![self.fill; self.state_len];
        let ours = library::load(&image, marks.inner(), library.inner());
        let theirs = reference::load(&self.image, &mut vec![self.fill; self.marks_len], &mut state);
        tally.load(&self.image, &theirs);
        same("load, number", ours.number, theirs.number)?;
        same("load, place", ours.place, theirs.place)?;
        same("load, task", ours.task, theirs.task)?;
        same("load, depth", ours.depth, theirs.depth)?;
        same_bytes("state after the load", library.seen(), &state)?;
        held("marks past MARKS_LENGTH were written", marks.seen().iter().skip(MARKS_LENGTH).all(|byte| *byte == self.fill))?;
        held("wrote outside marks", marks.intact())?;
        held("wrote outside the state", library.intact())?;
        Ok(Sides { image, library, reference: Player { state } })
    }
}

impl Sides {
    /// One step on both sides, compared.
    fn act(&mut self, action: &Action, tally: &mut Tally) -> Checked {
        let mut prepared = Player { state: std::mem::take(&mut self.reference.state) };
        let saved = prepared.state.clone();
        prepared.prepare(action);
        if self.library.seen() != prepared.state {
            self.library = Guarded::of(&prepared.state);
        }
        self.reference.state = saved;
        let inputs = action.levels();
        let image = action.lent.as_ref().unwrap_or(&self.image);
        let ours = library::step(image, self.library.inner(), action.task, action.given(&inputs));
        let played = self.reference.play(&self.image, action);
        let after = played.taken_back.as_ref().unwrap_or(&self.reference.state);
        tally.step(&played.answer, played.before, after, action);
        if !action.pokes.is_empty() {
            tally.poked(&prepared.state, &played.answer);
        }
        same_answers(&ours, &played.answer)?;
        same_bytes("state after the step", self.library.seen(), after)?;
        held("wrote outside the state", self.library.intact())?;
        held("the inputs were written", inputs == action.levels())
    }
}

/// Where the task stands, when there is such a thing.
fn stood(image: &[u8], state: &mut [u8], task: u32) -> Option<Stood> {
    let task = Some(task as usize).filter(|task| *task < TASKS)?;
    let state = State::of(state)?;
    let (header, blocks) = image::read(image).ok()?;
    let number = state.block(task);
    let block = image::block(blocks, Some(number as usize).filter(|number| *number < header.count)?);
    let content = ends::content_read(&state, task, block);
    let loaded = state.header();
    let relisted = header.landings != loaded.landings && Header { landings: loaded.landings, ..header } == *loaded;
    let bias = (state.status(BIAS), state.depth(BIAS), state.wait(BIAS) != NO_WAIT);
    Some(Stood { code: block[0], block: number, moved: state.moved() != 0, content, header, relisted, bias })
}

fn same_answers(ours: &Answer, theirs: &Answer) -> Checked {
    same("step, number", ours.number, theirs.number)?;
    same("step, place", ours.place, theirs.place)?;
    same("step, task", ours.task, theirs.task)?;
    same("step, depth", ours.depth, theirs.depth)?;
    same("step, motion", ours.motion, theirs.motion)?;
    same("step, position", ours.position, theirs.position)?;
    same("step, speed", ours.speed, theirs.speed)?;
    same("step, acceleration", ours.acceleration, theirs.acceleration)?;
    same("step, deceleration", ours.deceleration, theirs.deceleration)?;
    same("step, mode", ours.mode, theirs.mode)
}
