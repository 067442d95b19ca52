//! Lent buffers, as long as asked and no longer, filled with a pattern before
//! every call: nothing is cleared for an operation.

use crate::input::{Input, Operation};

#[derive(Clone, PartialEq, Eq)]
pub struct Lent {
    pub table: Vec<u16>,
    pub flags: Vec<u8>,
    pub word: Vec<u8>,
    pub path: Vec<u8>,
    pub workspace: Vec<u64>,
    pub marks: Vec<u8>,
}

impl Lent {
    pub fn new(input: &Input) -> Lent {
        let recordings = input.recordings as usize;
        let words = match input.operation {
            Operation::Find => 0,
            Operation::Verdict => 18 * input.allowance as usize,
            Operation::Links => recordings,
            Operation::Lists => 4 * recordings,
        };
        let lent = Lent {
            table: vec![0; 4096],
            flags: vec![0; 256],
            word: vec![0; 256],
            path: vec![0; input.allowance as usize],
            workspace: vec![0; words],
            marks: vec![0; recordings],
        };
        lent.filled()
    }

    fn filled(mut self) -> Lent {
        self.fill();
        self
    }

    pub fn fill(&mut self) {
        self.table.fill(0xa5c3);
        self.flags.fill(0xb6);
        self.word.fill(0x7d);
        self.path.fill(0x5e);
        self.workspace.fill(0xa5c3_0f1e_2d4b_6978);
        self.marks.fill(0xd9);
    }
}
