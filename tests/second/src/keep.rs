//! Keep: the bytes in which a found rewriting is stored.

use crate::find::find;
use crate::read::Job;
use crate::table::Table;

pub const KEPT_BYTES: usize = 8728;

/// The kept bytes, with zeros up to 8,728, and their length without the
/// zeros. Refusals: 9 and 10 as in Find.
pub fn keep(job: &Job) -> Result<(Vec<u8>, usize), u8> {
    let mut bytes = kept_file(job, &find(job)?.table);
    let length = bytes.len();
    assert!(length <= KEPT_BYTES);
    bytes.resize(KEPT_BYTES, 0);
    Ok((bytes, length))
}

/// A table as a kept file, with the names of the job's lists.
pub fn kept_file(job: &Job, table: &Table) -> Vec<u8> {
    let mut bytes = b"LRW".to_vec();
    put(&mut bytes, 1);
    bytes.push(job.lists.len() as u8);
    put(&mut bytes, table.states());
    for list in &job.lists {
        bytes.push(list.name.len() as u8);
        bytes.extend(list.name.as_bytes());
    }
    for (row, accepting) in table.next.iter().zip(&table.accepting) {
        bytes.push(u8::from(*accepting));
        for next in row {
            put(&mut bytes, *next);
        }
    }
    bytes
}

/// A 16-bit number, high byte first.
fn put(bytes: &mut Vec<u8>, number: usize) {
    bytes.push((number / 256) as u8);
    bytes.push((number % 256) as u8);
}
