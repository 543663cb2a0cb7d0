//! The images that came with document 01's order, each with what the printing program prints of it, as the program `vectors` holds them:
//! their names in `args`, the images in `data`, and in `stdout` each name with its text.

use std::fs;
use std::path::PathBuf;

use interpreter::printing;

#[test]
fn every_image_prints_its_trace() {
    let folder = PathBuf::from(env!("CARGO_MANIFEST_DIR")).join("../../crates/vectors");
    let names = fs::read_to_string(folder.join("args")).unwrap();
    assert_eq!(names.lines().count(), 99);
    let mut printed = Vec::new();
    for name in names.lines() {
        printed.extend_from_slice(format!("{name}\n").as_bytes());
        printing::trace(&fs::read(folder.join("data").join(name)).unwrap(), &mut printed).unwrap();
    }
    let expected = fs::read(folder.join("stdout")).unwrap();
    assert!(printed == expected, "the images print other traces than {}", folder.join("stdout").display());
}
