//! The proved library behind its C interface. The declarations repeat `include/ropebonnet.h`.

use crate::format::Part;
use crate::runner::{Answer, Lent, Needs, Runner};

extern "C" {
    fn ropebonnet_check(file: *const u8, file_length: usize) -> Answer;
    fn ropebonnet_prepare(file: *const u8, file_length: usize, work: *mut u32, work_length: usize) -> Answer;
    fn ropebonnet_run(
        file: *const u8,
        file_length: usize,
        inputs: *const u32,
        inputs_length: usize,
        constants: *const u32,
        constants_length: usize,
        registers: *mut u32,
        registers_length: usize,
        work: *mut u32,
        work_length: usize,
        memory: *mut u32,
        memory_length: usize,
        budget: u32,
    ) -> Answer;
    fn ropebonnet_record(file: *const u8, file_length: usize, n: usize) -> Part;
    fn ropebonnet_needs(file: *const u8, file_length: usize) -> Needs;
    fn ropebonnet_print(file: *const u8, file_length: usize, output: *mut u8, output_length: usize) -> Answer;
    fn ropebonnet_read(text: *const u8, text_length: usize, output: *mut u8, output_length: usize) -> Answer;
}

pub struct Product;

// Each pointer comes with the length of the slice it is taken from, and the library keeps none of them.
impl Runner for Product {
    fn name(&self) -> &'static str {
        "library"
    }

    fn check(&self, file: &[u8]) -> Answer {
        unsafe { ropebonnet_check(file.as_ptr(), file.len()) }
    }

    fn prepare(&self, file: &[u8], work: &mut [u32]) -> Answer {
        unsafe { ropebonnet_prepare(file.as_ptr(), file.len(), work.as_mut_ptr(), work.len()) }
    }

    fn run(&self, file: &[u8], lent: Lent, budget: u32) -> Answer {
        unsafe {
            ropebonnet_run(
                file.as_ptr(),
                file.len(),
                lent.inputs.as_ptr(),
                lent.inputs.len(),
                lent.constants.as_ptr(),
                lent.constants.len(),
                lent.registers.as_mut_ptr(),
                lent.registers.len(),
                lent.work.as_mut_ptr(),
                lent.work.len(),
                lent.memory.as_mut_ptr(),
                lent.memory.len(),
                budget,
            )
        }
    }

    fn record(&self, file: &[u8], n: usize) -> Part {
        unsafe { ropebonnet_record(file.as_ptr(), file.len(), n) }
    }

    fn needs(&self, file: &[u8]) -> Needs {
        unsafe { ropebonnet_needs(file.as_ptr(), file.len()) }
    }

    fn print(&self, file: &[u8], output: &mut [u8]) -> Answer {
        unsafe { ropebonnet_print(file.as_ptr(), file.len(), output.as_mut_ptr(), output.len()) }
    }

    fn read(&self, text: &[u8], output: &mut [u8]) -> Answer {
        unsafe { ropebonnet_read(text.as_ptr(), text.len(), output.as_mut_ptr(), output.len()) }
    }
}
