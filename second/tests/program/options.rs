//! The binary with its options.

use crate::files::{file, played};
use std::io::Write;
use std::process::{Command, Output, Stdio};

fn second(options: &[&str], file: &str) -> Output {
    let mut program = Command::new(env!("CARGO_BIN_EXE_second"))
        .args(options)
        .stdin(Stdio::piped())
        .stdout(Stdio::piped())
        .stderr(Stdio::piped())
        .spawn()
        .unwrap();
    // The program ends without reading where an option is not known.
    let _ = program.stdin.take().unwrap().write_all(file.as_bytes());
    program.wait_with_output().unwrap()
}

fn assert_printed(options: &[&str], file: &str, expected: &str) {
    let output = second(options, file);
    assert_eq!(output.status.code(), Some(0), "{options:?}");
    assert_eq!(String::from_utf8(output.stdout).unwrap(), expected, "{options:?}");
    assert!(output.stderr.is_empty(), "{options:?}");
}

fn assert_error(options: &[&str], file: &str, expected: &str) {
    let output = second(options, file);
    assert_eq!(output.status.code(), Some(2), "{options:?}");
    assert!(output.stdout.is_empty(), "{options:?}");
    assert_eq!(String::from_utf8(output.stderr).unwrap(), expected, "{options:?}");
}

#[test]
fn what_is_printed() {
    let file = file("ticket", &["1,0", "1,0"], "0,1,1");
    assert_printed(&[], &file, &played("", &file));
    assert_printed(&["--slip", "4"], &file, &played("4", &file));
    assert_printed(&["--trace"], &file, "1 0 join 0\n2 1 join 1\n3 1 spin 1\n");
    let slipped = "1 0 join 0\n2 1 join 1\n3 1 grant 1\n";
    assert_printed(&["--trace", "--slip", "4"], &file, slipped);
    assert_printed(&["--slip", "4", "--trace"], &file, slipped);
}

#[test]
fn a_refusal_is_printed_as_always() {
    for options in [&[][..], &["--trace"], &["--slip", "6"], &["--slip", "6", "--trace"]] {
        assert_printed(options, "algo=mcz\n", "refused=2\nplace=5\n");
    }
}

#[test]
fn a_slip_of_another_machine() {
    for (slip, machine) in [
        ("1", "mcs"),
        ("2", "mcs"),
        ("3", "mcs"),
        ("4", "ticket"),
        ("5a", "dissem"),
        ("5b", "dissem"),
        ("6", "central"),
    ] {
        let tree = file("tree", &["1,0"], "0");
        let message = format!("second: slip {slip} is one of the machine {machine}\n");
        assert_error(&["--slip", slip], &tree, &message);
        assert_error(&["--slip", slip, "--trace"], &tree, &message);
    }
}

#[test]
fn an_unknown_option() {
    let file = file("mcs", &["1,0"], "0");
    let usage = "usage: second [--slip 1|2|3|4|5a|5b|6] [--trace]\n";
    for options in [&["--slip"][..], &["--slip", "5"], &["--slip", "0"], &["--traces"], &["1"]] {
        assert_error(options, &file, usage);
    }
}
