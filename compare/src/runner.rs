//! What the library and the second interpreter have in common: the seven calls of the C interface.

use crate::format::Part;

/// As in `include/ropebonnet.h`.
#[repr(C)]
#[derive(Clone, Copy, PartialEq, Eq, Debug)]
pub struct Answer {
    pub status: u32,
    pub first: u32,
    pub second: u32,
}

pub const DONE: u32 = 0;
pub const HALTED: u32 = 1;
pub const REFUSED: u32 = 2;

impl Answer {
    /// The number of instructions, of a run its steps, or of an output the bytes written.
    pub fn done(first: u32) -> Answer {
        Answer { status: DONE, first, second: 0 }
    }

    pub fn halted(steps: u32, next: u32) -> Answer {
        Answer { status: HALTED, first: steps, second: next }
    }

    pub fn refused(number: u32, place: u32) -> Answer {
        Answer { status: REFUSED, first: number, second: place }
    }
}

/// What a run of a file needs; as in `include/ropebonnet.h`, the first three words being an answer.
#[repr(C)]
#[derive(Clone, Copy, PartialEq, Eq, Debug)]
pub struct Needs {
    pub answer: Answer,
    pub instructions: u32,
    pub work_words: u32,
    pub input_words: u32,
    pub constant_words: u32,
    pub outputs: u32,
    pub memory: u32,
}

/// The words lent to a run.
pub struct Lent<'a> {
    pub inputs: &'a [u32],
    pub constants: &'a [u32],
    pub registers: &'a mut [u32],
    pub work: &'a mut [u32],
    pub memory: &'a mut [u32],
}

pub trait Runner {
    fn name(&self) -> &'static str;
    fn check(&self, file: &[u8]) -> Answer;
    fn prepare(&self, file: &[u8], work: &mut [u32]) -> Answer;
    fn run(&self, file: &[u8], lent: Lent, budget: u32) -> Answer;
    fn record(&self, file: &[u8], n: usize) -> Part;
    fn needs(&self, file: &[u8]) -> Needs;
    fn print(&self, file: &[u8], output: &mut [u8]) -> Answer;
    fn read(&self, text: &[u8], output: &mut [u8]) -> Answer;
}
