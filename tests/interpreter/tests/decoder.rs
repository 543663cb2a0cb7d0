//! The decoder: the table of lengths, each form, and the places where no instruction stands.

use interpreter::instruction::{Branch, Instruction, LENGTHS, decode};
use interpreter::numbers::SlotNumber;
use interpreter::slots::SlotSet;

#[test]
fn the_table_of_lengths() {
    for (first, &length) in LENGTHS.iter().enumerate() {
        let expected = match first {
            0x01 => 5,
            0x02 => 2,
            0x03..=0x06 => 1,
            0x10 | 0x11 => 2,
            0x12 => 4,
            0x13 => 10,
            0x14 => 8,
            0x15 | 0x16 => 2,
            0x17..=0x19 => 3,
            0x1A => 5,
            _ => 0,
        };
        assert_eq!(length, expected, "first byte {first:02X}");
    }
}

/// Decodes an instruction that stands at place 3, first as it is, then with bytes behind it: the same.
fn at_place_3(instruction: &[u8], check: impl Fn(Instruction<'_>)) {
    for behind in [&[][..], &[0xEE; 300]] {
        let code = [&[0xEE; 3], instruction, behind].concat();
        let (decoded, next) = decode(&code, 3).unwrap();
        assert_eq!(usize::from(next), 3 + instruction.len());
        check(decoded);
    }
    for length in 0..instruction.len() {
        let code = [&[0xEE; 3], &instruction[..length]].concat();
        assert_eq!(decode(&code, 3), None, "the instruction runs past the code");
    }
}

#[test]
fn each_form() {
    let slot = SlotNumber;
    let branch = |slot, m, place| Branch { slot: SlotNumber(slot), keeps: SlotSet(m), place };
    let is = |bytes: &[u8], expected: Instruction<'_>| at_place_3(bytes, |decoded| assert_eq!(decoded, expected));
    is(&[0x01, 0x80, 0, 0, 2], Instruction::Cst(i32::MIN + 2));
    is(&[0x01, 0x01, 0x02, 0x03, 0x04], Instruction::Cst(0x01020304));
    is(&[0x02, 255], Instruction::Access(255));
    is(&[0x03], Instruction::Store);
    is(&[0x04], Instruction::Add);
    is(&[0x05], Instruction::Mul);
    is(&[0x06], Instruction::Leq);
    is(&[0x10, 200], Instruction::Put(slot(200)));
    is(&[0x11, 7], Instruction::Get(slot(7)));
    is(&[0x12, 1, 2, 3], Instruction::Split(slot(1), slot(2), slot(3)));
    let fork = Instruction::Fork(slot(1), branch(2, 3, 0x0405), branch(6, 7, 0x0809));
    is(&[0x13, 1, 2, 3, 4, 5, 6, 7, 8, 9], fork);
    is(&[0x14, 1, 2, 3, 4, 5, 6, 7], Instruction::Plug(branch(1, 2, 0x0304), branch(1, 5, 0x0607)));
    is(&[0x15, 1], Instruction::Close(slot(1)));
    is(&[0x16, 1], Instruction::Halt(slot(1)));
    is(&[0x17, 1, 2], Instruction::Same(slot(1), slot(2)));
    is(&[0x18, 1, 2], Instruction::HPut(slot(1), 2));
}

#[test]
fn hcase_has_1_to_16_places() {
    for k in 0..=255u8 {
        let places: Vec<u8> = (0..2 * usize::from(k)).map(|i| i as u8).collect();
        let bytes = [&[0x19, 9, k][..], &places].concat();
        if !(1..=16).contains(&k) {
            assert_eq!(decode(&bytes, 0), None, "k = {k}");
            continue;
        }
        at_place_3(&bytes, |decoded| {
            let Instruction::HCase(SlotNumber(9), places) = decoded else { panic!("{decoded:?}") };
            assert_eq!(places.get(0), Some(0x0001));
            assert_eq!(places.get(k - 1), Some(u16::from_be_bytes([2 * k - 2, 2 * k - 1])));
            assert_eq!(places.get(k), None);
        });
    }
}

#[test]
fn run_lists_0_to_255_slots() {
    for j in 0..=255u8 {
        let bytes = [&[0x1A, 0x12, 0x34, 5, j][..], &(0..j).collect::<Vec<u8>>()].concat();
        at_place_3(&bytes, |decoded| {
            let Instruction::Run(0x1234, 5, listed) = decoded else { panic!("{decoded:?}") };
            assert!(listed.iter().eq((0..j).map(SlotNumber)));
        });
    }
}

#[test]
fn places_outside_the_code() {
    assert_eq!(decode(&[], 0), None);
    assert_eq!(decode(&[0x03], 1), None);
    assert_eq!(decode(&[0x03], u16::MAX), None);
    for first in 0..=255u8 {
        let begins = LENGTHS[usize::from(first)] != 0;
        let code = [&[first, 1, 1, 1, 1][..], &[0; 300]].concat();
        assert_eq!(decode(&code, 0).is_some(), begins, "first byte {first:02X}");
    }
}
