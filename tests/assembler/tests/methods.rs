//! Document 01's run in words, sheets, and what is wrong with a method.

use assembler::sheet::{self, HEADER};
use assembler::{code, image};
use interpreter::instruction::{LENGTHS, decode};

const ONE_RUN: &str = "\
plug 0, {} give, {} take
give: cst 4
put 0
halt 0
take: get 0
store
halt 0";

#[test]
fn document_01s_run() {
    let bytes = code(ONE_RUN).unwrap();
    let expected = [0x14, 0, 0, 0, 8, 0, 0, 0x11, 1, 0, 0, 0, 4, 0x10, 0, 0x16, 0, 0x11, 0, 3, 0x16, 0];
    assert_eq!(bytes, expected);
    let image = image(&bytes).unwrap();
    assert_eq!((image.len(), &image[510..]), (512, &[0xC7, 0x9E][..]));
}

#[test]
fn every_form() {
    let text = "cst -2\naccess 3\nstore\nadd\nmul\nleq\nput 1\nget 2\nsplit 0 1 2\nfork 0, 1 {2,3} 300, 4 {} 5\n\
        plug 7, {0} 1, {1,6} 2\nclose 3\nhalt 4\nsame 5 6\nhput 7 255\nhcase 0 1 2\nrun 9 2 3 1";
    let bytes = code(text).unwrap();
    let (mut place, mut names) = (0, Vec::new());
    while let Some((instruction, next)) = decode(&bytes, place) {
        names.push(instruction.name());
        place = next;
    }
    assert_eq!(usize::from(place), bytes.len());
    assert_eq!(names, text.lines().map(|line| line.split(' ').next().unwrap()).collect::<Vec<_>>());
    assert_eq!(names.len(), LENGTHS.iter().filter(|&&length| length != 0).count());
    assert_eq!(bytes[..5], [0x01, 0xFF, 0xFF, 0xFF, 0xFE]);
    assert_eq!(bytes[19..29], [0x13, 0, 1, 0b1100, 1, 44, 4, 0, 0, 5]);
}

#[test]
fn faults() {
    for (text, line) in [
        ("put 0\nputs 0", 2),
        ("put", 1),
        ("put 256", 1),
        ("cst 2147483648", 1),
        ("run nowhere 0", 1),
        ("x: put 0\nx: put 0", 2),
        ("plug 0, {8} 0, {} 0", 1),
        ("plug 0, 1 0, {} 0", 1),
    ] {
        assert_eq!(code(text).unwrap_err().line, line, "{text}");
    }
}

#[test]
fn sheets() {
    let draft =
        format!("# A method\n\n{HEADER}\n|---|---|---|---|---|\n| | | a | `put 0` | puts |\n| | | | `run a 0 0` | again |\n\nEnd.");
    assert_eq!(sheet::code(&draft).unwrap_err().line, 5);
    let sheet = sheet::filled(&draft).unwrap().join("\n");
    assert!(sheet.contains("| 2 | 1A 00 00 00 01 00 |  | `run a 0 0` | again |"));
    assert_eq!(sheet::code(&sheet).unwrap(), [0x10, 0, 0x1A, 0, 0, 0, 1, 0]);
}
