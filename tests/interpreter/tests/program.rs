//! The program itself: its two modes on standard input and output.

mod common;

use std::io::Write;
use std::process::{Command, Output, Stdio};

use common::*;

/// What the program does with these arguments and this input.
fn program(arguments: &[&str], input: &[u8]) -> Output {
    let mut child = Command::new(env!("CARGO_BIN_EXE_interpreter"))
        .args(arguments)
        .stdin(Stdio::piped())
        .stdout(Stdio::piped())
        .stderr(Stdio::piped())
        .spawn()
        .unwrap();
    // The program need not read all of it.
    let _ = child.stdin.take().unwrap().write_all(input);
    child.wait_with_output().unwrap()
}

#[test]
fn trace() {
    let output = program(&["trace"], &image_of(&ONE_RUN));
    assert!(output.status.success());
    assert!(output.stdout.starts_with(b"1 R0 plug\n2 R1 get\n"));
    assert!(output.stdout.ends_with(b"9 E0 close\nfinished 9 33\n"));
}

#[test]
fn trace_of_refused_images() {
    let longer = [image_of(&[3; 8_156]), vec![0; 1]].concat();
    for (image, expected) in
        [(&[][..], "refused 20\n"), (&[0; 512], "refused 21\n"), (&longer, "refused 20\n"), (&[0; 20_000], "refused 20\n")]
    {
        let output = program(&["trace"], image);
        assert!(output.status.success());
        assert_eq!(String::from_utf8(output.stdout).unwrap(), expected);
    }
}

#[test]
fn console() {
    let output = program(&["console"], b"free\nrun 1 0\nhelp me");
    assert!(output.status.success());
    assert_eq!(output.stdout, b"free: 64 0\nrun: 0 0 0 stuck\n? help\n");
}

#[test]
fn usage() {
    for arguments in [&[][..], &["help"], &["trace", "x"], &["console", "x"]] {
        let output = program(arguments, b"");
        assert_eq!(output.status.code(), Some(2));
        assert!(output.stdout.is_empty());
        assert!(output.stderr.starts_with(b"usage: "));
    }
}
