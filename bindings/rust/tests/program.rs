//! The program: what it prints and how it ends.

use std::io::Write;
use std::process::{Command, Stdio};

const S3: &str = "j i p e1 e2\n1 1 3 0 0\n2 2 2 0 0\n2 1 0 1 0\n";

/// Runs the program with a text on its standard input: status, output, errors.
fn run(arguments: &[&str], input: &str) -> (i32, String, String) {
    let mut child = Command::new(env!("CARGO_BIN_EXE_chieftables"))
        .args(arguments)
        .stdin(Stdio::piped())
        .stdout(Stdio::piped())
        .stderr(Stdio::piped())
        .spawn()
        .unwrap();
    child.stdin.take().unwrap().write_all(input.as_bytes()).unwrap();
    let output = child.wait_with_output().unwrap();
    let text = |bytes| String::from_utf8(bytes).unwrap();
    (output.status.code().unwrap(), text(output.stdout), text(output.stderr))
}

#[test]
fn it_measures_builds_and_checks() {
    assert_eq!(run(&["accept", "-"], S3), (0, String::new(), String::new()));
    assert_eq!(run(&["measure", "-"], S3).1, "144\n");
    assert_eq!(run(&["commutative", "-"], S3).1, "no\n");
    assert_eq!(run(&["commutative", "-"], &S3.replace("0 1 0", "0 0 0")).1, "yes\n");
    let (status, table, _) = run(&["build", "-"], S3);
    assert!(status == 0 && table.len() == 258 && table.starts_with("level rep deg gen ref col row exp\n"));
    let folder = std::env::temp_dir().join(format!("chieftables-{}", std::process::id()));
    std::fs::create_dir_all(&folder).unwrap();
    let group = folder.join("group.txt");
    std::fs::write(&group, S3).unwrap();
    let checked = |table: &str| run(&["check", group.to_str().unwrap(), "-"], table);
    assert_eq!(checked(&table).0, 0);
    let (status, _, said) = checked(&table.replace("2 2 2 2 2 1 0 0", "2 2 2 2 2 1 0 1"));
    assert_eq!((status, said.as_str()), (1, "22: a relation fails\n"));
    std::fs::remove_dir_all(&folder).unwrap();
}

#[test]
fn it_says_what_is_wrong() {
    let (status, printed, said) = run(&["build", "-"], &S3.replace("0 1 0", "0 2 0"));
    assert_eq!((status, printed.as_str()), (1, ""));
    assert!(said.starts_with("15: "));
    assert_eq!(run(&["build", "/nowhere/group.txt"], "").0, 2);
    assert_eq!(run(&[], "").0, 2);
}
