//! `examples/first.rs`, the first program that a reader sees, writes what it is said to write.
use std::env;
use std::process::Command;

#[test]
fn the_first_program() {
    // `cargo test` builds the examples beside the folder of the tests
    let test = env::current_exe().unwrap();
    let program = test.parent().unwrap().parent().unwrap().join("examples").join("first");
    let output = Command::new(program).output().expect("cargo test builds the example");
    assert!(output.status.success());
    let said = String::from_utf8(output.stdout).unwrap();
    assert_eq!(said, "found after 3 units: 1 0\n0 goes to 1, 1 goes to 0\nout of budget after 2 units\n");
}
