//! The documents of this repository have no fault.

use std::path::Path;

use papers::{faults, Tree};

#[test]
fn documents() {
    let root = Path::new(env!("CARGO_MANIFEST_DIR")).join("../..");
    let tree = Tree::read(&root).expect("the repository can be read");
    let faults = faults(&tree);
    for fault in &faults {
        println!("{fault}");
    }
    assert!(faults.is_empty(), "{} faults", faults.len());
}
