//! The whole run that README shows: questions asked, sheets written and checked, by the programs.

use std::path::Path;
use std::process::Command;

#[test]
fn the_run_that_the_readme_shows() {
    let root = Path::new(env!("CARGO_MANIFEST_DIR")).join("../..");
    let read = |name: &str| std::fs::read_to_string(root.join(name)).expect(name);
    let expected = read("examples/whole-run.txt");
    let output = Command::new(root.join("examples/whole-run")).output().expect("the script starts");
    let said = String::from_utf8_lossy(&output.stderr);
    assert!(output.status.success(), "build the programs first (`make programs`): {said}");
    assert_eq!(String::from_utf8_lossy(&output.stdout), expected);
    let shown: String = expected.lines().map(|line| format!("    {line}\n")).collect();
    assert!(read("README.md").contains(&shown), "README shows another run");
}
