//! Both must give the same number and leave the same in every buffer.

use crate::input::Case;
use crate::lent::Lent;
use crate::ours::measured_ours;
use crate::tuned::measured_peer;

/// The answers of all inputs of a case, after they were compared.
pub fn compare(case: &Case) -> Vec<(u64, Lent)> {
    case.inputs
        .iter()
        .map(|input| {
            let (mut ours, mut theirs) = (Lent::new(input), Lent::new(input));
            let told = [measured_ours(input, &mut ours), measured_peer(input, &mut theirs)];
            if told[0] != told[1] || ours != theirs {
                let job = String::from_utf8_lossy(&input.job);
                eprintln!("a difference at {}: {:x?}\n{job}", case.name, told);
                std::process::exit(1);
            }
            (told[0], ours)
        })
        .collect()
}
