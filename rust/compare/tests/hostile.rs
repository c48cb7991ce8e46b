//! Every entry point of the library holds against hostile input. `compare hostile` is the same as a
//! command, with more calls, to be run under a tool that watches memory.

#[test]
fn every_entry_point_holds() {
    assert!(compare::hostile::compare(2000).finish());
}
