//! The proved operations, as libserver.a has them.

use crate::input::Input;
use crate::input::Operation::*;
use crate::lent::Lent;

#[no_mangle]
#[inline(never)]
pub extern "Rust" fn measured_ours(input: &Input, lent: &mut Lent) -> u64 {
    let Lent { table, flags, word, path, workspace, marks } = lent;
    let (job, links) = (&input.job, &input.links);
    let (recordings, start) = (input.recordings, input.start);
    match input.operation {
        Find => server::find(job, table, flags, word),
        Verdict => server::verdict(job, input.allowance, table, flags, path, workspace),
        Links => server::links(job, recordings, 0, links, start, marks, workspace),
        Lists => server::lists(job, recordings, links, start, marks, workspace),
    }
}
