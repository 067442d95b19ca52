//! The stored outputs of the program `rewrite`: each NAME.out is what is printed
//! for NAME.job.

use second::print::printed;
use std::path::PathBuf;

#[test]
fn every_stored_output() {
    let folder = PathBuf::from(env!("CARGO_MANIFEST_DIR")).join("../rewrite/cases");
    let files = std::fs::read_dir(folder).expect("a folder of cases");
    let files = files.map(|file| file.expect("a file").path());
    let mut jobs = 0;
    for job in files.filter(|file| file.extension().is_some_and(|end| end == "job")) {
        let bytes = |path: &PathBuf| std::fs::read(path).unwrap_or_else(|error| panic!("{path:?}: {error}"));
        let stored = String::from_utf8(bytes(&job.with_extension("out"))).expect("a printed output");
        assert_eq!(stored, printed(&bytes(&job)), "{job:?}");
        jobs += 1;
    }
    assert!(jobs >= 30, "only {jobs} jobs");
}
