//! What the example prints is what stands beside it.

use std::env;
use std::process::Command;

#[test]
fn two_laptops() {
    // cargo builds the examples before it runs the tests, in a folder beside theirs.
    let mut example = env::current_exe().expect("the test's own path");
    example.pop();
    example.pop();
    example.extend(["examples", "two_laptops"]);
    let output = Command::new(&example)
        .output()
        .expect("`cargo test` without --test builds the example");
    assert!(output.status.success());
    let printed = String::from_utf8(output.stdout).expect("plain text");
    assert_eq!(printed, include_str!("../examples/two_laptops.out"));
}
