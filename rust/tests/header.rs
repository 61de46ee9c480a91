//! `include/bizakoma.h`, compiled as C99 and as C++17 with all warnings as errors, and the C programs run.
use std::path::Path;
use std::process::Command;

#[test]
fn the_header_and_the_c_programs() {
    let script = Path::new(env!("CARGO_MANIFEST_DIR")).join("../include/test.sh");
    let output = Command::new(script).output().unwrap();
    assert!(output.status.success(), "{}{}", String::from_utf8_lossy(&output.stdout), String::from_utf8_lossy(&output.stderr));
}
