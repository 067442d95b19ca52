//! Every counted case once, ours and then the peer's, for callgrind: it counts
//! inside the measured functions and writes a part at each end of a case.

use crate::input::Case;
use crate::lent::Lent;
use crate::ours::measured_ours;
use crate::tuned::measured_peer;

#[no_mangle]
#[inline(never)]
pub extern "Rust" fn case_ended(number: usize) {
    std::hint::black_box(number);
}

pub fn count(cases: &[Case]) {
    let mut number = 0;
    for case in cases.iter().filter(|case| case.counted) {
        for (who, function) in [("ours", measured_ours as extern "Rust" fn(&_, &mut _) -> u64), ("peer", measured_peer)]
        {
            for input in &case.inputs {
                std::hint::black_box(function(input, &mut Lent::new(input)));
            }
            number += 1;
            case_ended(number);
            println!("{number}\t{}\t{who}", case.name);
        }
    }
}
