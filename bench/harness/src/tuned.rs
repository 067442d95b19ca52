//! The tuned peer, called as the proved operations are.

use crate::input::{Input, Operation};
use crate::lent::Lent;

#[no_mangle]
#[inline(never)]
pub extern "Rust" fn measured_peer(input: &Input, lent: &mut Lent) -> u64 {
    let Input { job, links, recordings, start, .. } = input;
    let Lent { table, flags, word, path, workspace, marks } = lent;
    match input.operation {
        Operation::Find => peer::find(job, table, flags, word),
        Operation::Verdict => peer::verdict(job, input.allowance, table, flags, path, workspace),
        Operation::Links => peer::links(job, *recordings, 0, links, *start, marks, workspace),
        Operation::Lists => peer::lists(job, *recordings, links, *start, marks, workspace),
    }
}
