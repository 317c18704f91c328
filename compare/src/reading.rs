//! The block reading, over nested lists: "defined apart from these jumps".

use crate::check::Program;
use crate::format::Instruction;
use crate::kinds::*;
use crate::machine::Machine;

/// An instruction of a list, by its number in file order, with the block it opens, if it opens one.
#[derive(Clone, PartialEq, Debug)]
pub enum Item {
    Plain(usize),
    If { opener: usize, first: List, second: List },
    Loop { opener: usize, list: List },
    Switch { opener: usize, list: List },
}

pub type List = Vec<Item>;

impl Item {
    pub fn number(&self) -> usize {
        match *self {
            Item::Plain(n) => n,
            Item::If { opener, .. } | Item::Loop { opener, .. } | Item::Switch { opener, .. } => opener,
        }
    }
}

/// The outermost list of an accepted program.
pub fn nest(instructions: &[Instruction]) -> List {
    let kinds: Vec<u8> = instructions.iter().map(|instruction| instruction.kind).collect();
    list_from(&kinds, &mut 0)
}

/// The list from instruction `next` on. "ELSE, ENDIF, ENDLOOP and ENDSWITCH are the last instruction of the list
/// they close", and END is that of the outermost.
fn list_from(kinds: &[u8], next: &mut usize) -> List {
    let mut list = vec![];
    loop {
        let n = *next;
        *next += 1;
        let item = match kinds[n] {
            UIF => {
                let first = list_from(kinds, next);
                // The first part has ended with the instruction just before `next`.
                let second = if kinds[*next - 1] == ELSE { list_from(kinds, next) } else { vec![] };
                Item::If { opener: n, first, second }
            }
            BGNLOOP => Item::Loop { opener: n, list: list_from(kinds, next) },
            SWITCH => Item::Switch { opener: n, list: list_from(kinds, next) },
            _ => Item::Plain(n),
        };
        list.push(item);
        if matches!(kinds[n], ELSE | ENDIF | ENDLOOP | ENDSWITCH | END) {
            return list;
        }
    }
}

/// "A list stops by running out, by BRK, by CONT, by END or by the budget."
#[derive(Clone, Copy, PartialEq, Debug)]
pub enum Stop {
    RanOut,
    Brk,
    Cont,
    End,
    /// The budget is spent; the next instruction's number.
    Halt(usize),
}

/// What BRK in a SWITCH leaves.
#[derive(Clone, Copy, PartialEq, Debug)]
pub enum SwitchBrk {
    /// The paper's rule: the SWITCH.
    Switch,
    /// The old fault, put in on purpose: the innermost loop around the SWITCH too, if there is one.
    LoopToo,
}

pub struct Reading<'a> {
    pub program: &'a Program,
    pub machine: Machine<'a>,
    pub budget: u32,
    pub count: u32,
    pub switch_brk: SwitchBrk,
    pub open_loops: usize,
    /// How often each kind was carried out.
    pub carried_out: &'a mut [u64; 256],
}

impl Reading<'_> {
    pub fn read(&mut self, list: &[Item]) -> Stop {
        for item in list {
            let stop = self.read_item(item);
            if stop != Stop::RanOut {
                return stop;
            }
        }
        Stop::RanOut
    }

    /// Reads one instruction and the block it opens; `RanOut` if the list around it goes on.
    fn read_item(&mut self, item: &Item) -> Stop {
        let program = self.program;
        let instruction = &program.instructions[item.number()];
        if self.count == self.budget {
            return Stop::Halt(item.number());
        }
        self.count += 1;
        self.carried_out[instruction.kind as usize] += 1;
        match item {
            Item::Plain(_) => self.read_plain(instruction),
            Item::If { first, second, .. } => {
                let x = self.machine.source(&instruction.sources[0])[0];
                // "A UIF hands BRK and CONT to the list around it"
                self.read(if x == 0 { second } else { first })
            }
            Item::Loop { list, .. } => {
                self.open_loops += 1;
                let stop = self.read_loop(list);
                self.open_loops -= 1;
                stop
            }
            Item::Switch { list, .. } => self.read_switch(instruction, list),
        }
    }

    fn read_plain(&mut self, instruction: &Instruction) -> Stop {
        match instruction.kind {
            BRK => return Stop::Brk,
            CONT => return Stop::Cont,
            END => return Stop::End,
            // "Labels and closing marks only count."
            NOP | ELSE | ENDIF | ENDLOOP | ENDSWITCH | CASE | DEFAULT => {}
            _ => self.machine.carry_out(instruction),
        }
        Stop::RanOut
    }

    /// "when a loop's list runs out, the loop starts it anew. [..] On CONT, a loop starts its list anew."
    fn read_loop(&mut self, list: &[Item]) -> Stop {
        loop {
            match self.read(list) {
                Stop::RanOut | Stop::Cont => {}
                Stop::Brk => return Stop::RanOut,
                stop => return stop,
            }
        }
    }

    /// "from just past the CASE equal to its x, else past DEFAULT, else not at all"
    fn read_switch(&mut self, switch: &Instruction, list: &[Item]) -> Stop {
        let x = self.machine.source(&switch.sources[0])[0];
        let equal = list.iter().position(|item| self.label(item) == Some(Some(x)));
        let default = list.iter().position(|item| self.label(item) == Some(None));
        let Some(label) = equal.or(default) else { return Stop::RanOut };
        match self.read(&list[label + 1..]) {
            Stop::Brk if self.switch_brk == SwitchBrk::LoopToo && self.open_loops > 0 => Stop::Brk,
            Stop::Brk => Stop::RanOut,
            stop => stop,
        }
    }

    /// A label of this list: a CASE with its value, or DEFAULT without.
    fn label(&self, item: &Item) -> Option<Option<u32>> {
        let instruction = &self.program.instructions[item.number()];
        match instruction.kind {
            CASE => Some(Some(self.machine.source(&instruction.sources[0])[0])),
            DEFAULT => Some(None),
            _ => None,
        }
    }
}
