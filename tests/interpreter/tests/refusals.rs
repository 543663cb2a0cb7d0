//! The numbers 2 to 19: each where it is given, and the order of those that hold at once. A refused ask leaves the memory as found.

mod common;

use common::*;
use interpreter::calls;

/// A memory with this code and this record 0, which may hold the ends 0, 2, 4, .. of pairs whose other ends are given up.
fn with_record(code: &[u8], record: Rec<'_>) -> Vec<u8> {
    let mut lent = memory(code);
    for &(_, end) in record.slots {
        put_end(&mut lent, end.into(), end + 1, &[]);
        put_end(&mut lent, usize::from(end) + 1, end, &[CLOSE]);
    }
    put_record(&mut lent, 0, record);
    lent
}

/// Fills the queue of an end with values.
fn fill_queue(lent: &mut [u8], end: usize, partner: u8) {
    put_end(lent, end, partner, &[value(1); 8]);
}

/// Asks record 0 of a sound memory. If it is refused the memory must be as found, else it must be sound again.
fn ask(mut lent: Vec<u8>) -> u8 {
    let found = lent.clone();
    assert!(calls::view(&lent).is_ok(), "the memory to be asked is sound");
    let answer = number(calls::ask_record(&mut lent, 0));
    if answer == 0 {
        assert_ne!(lent, found);
        assert!(calls::view(&lent).is_ok(), "the memory is sound afterwards");
    } else {
        assert_eq!(lent, found);
    }
    answer
}

/// The answer of record 0 that stands at this instruction.
fn answer(code: &[u8], stack: &[i32], environment: &[i32], slots: &[(usize, u8)]) -> u8 {
    ask(with_record(code, Rec { stack, environment, slots, ..Rec::default() }))
}

/// The same with the queue of the end in the first listed slot full.
fn answer_full(code: &[u8], stack: &[i32], slots: &[(usize, u8)]) -> u8 {
    let mut lent = with_record(code, Rec { stack, slots, ..Rec::default() });
    let (_, end) = slots[0];
    fill_queue(&mut lent, end.into(), end + 1);
    ask(lent)
}

const MANY: [i32; 16] = [1; 16];
const ONE: &[(usize, u8)] = &[(0, 0)];
const TWO: &[(usize, u8)] = &[(0, 0), (1, 2)];
const THREE: &[(usize, u8)] = &[(0, 0), (1, 2), (2, 4)];

#[test]
fn records_that_cannot_be_asked() {
    let mut lent = with_record(&[0x03], Rec::default());
    for (r, expected) in [(1, 2), (31, 2), (32, 2), (u32::MAX, 2)] {
        assert_eq!(number(calls::ask_record(&mut lent, r)), expected);
    }
    let mut lent = with_record(&[0x11, 0], Rec { status: WAITING, slots: ONE, ..Rec::default() });
    put_end(&mut lent, 0, 1, &[wait(0)]);
    assert_eq!(ask(lent), 3);
}

#[test]
fn places_that_hold_no_instruction() {
    let at = |code: &[u8], place| ask(with_record(code, Rec { place, stack: &[1, 1], ..Rec::default() }));
    assert_eq!(at(&[], 0), 4);
    assert_eq!(at(&[0x04], 1), 4);
    assert_eq!(at(&[0x04], 65_535), 4);
    assert_eq!(at(&[0x04], 0), 0);
    for first in (0..=255).filter(|byte| !matches!(byte, 0x01..=0x06 | 0x10..=0x1A)) {
        assert_eq!(at(&[first; 20], 0), 4, "first byte {first}");
    }
    assert_eq!(at(&[0x01, 0, 0, 0], 0), 4);
    assert_eq!(at(&[0x19, 9, 0, 0, 0], 0), 4);
    assert_eq!(at(&[0x19, 9, 17].iter().copied().chain([0; 34]).collect::<Vec<_>>(), 0), 4);
    assert_eq!(at(&[0x19, 9, 2, 0, 0, 0], 0), 4);
    assert_eq!(at(&[0x19, 9, 2, 0, 0, 0, 0], 0), 8);
    assert_eq!(at(&[0x1A, 0, 0, 9, 2, 0], 0), 4);
    assert_eq!(at(&[0x1A, 0, 0, 9, 2, 0, 0], 0), 5);
}

#[test]
fn numbers() {
    let cst = [0x01, 0x80, 0, 0, 0];
    assert_eq!(answer(&cst, &MANY[1..], &[], &[]), 0);
    assert_eq!(answer(&cst, &MANY, &[], &[]), 6);
    assert_eq!(answer(&[0x02, 1], &[], &[7, 8], &[]), 0);
    assert_eq!(answer(&[0x02, 2], &[], &[7, 8], &[]), 7);
    assert_eq!(answer(&[0x02, 255], &MANY, &[], &[]), 6);
    assert_eq!(answer(&[0x03], &[], &MANY, &[]), 5);
    assert_eq!(answer(&[0x03], &[1], &MANY, &[]), 6);
    assert_eq!(answer(&[0x03], &[1], &MANY[1..], &[]), 0);
    for operation in [0x04, 0x05, 0x06] {
        assert_eq!(answer(&[operation], &[1], &[], &[]), 5);
        assert_eq!(answer(&[operation], &MANY, &[], &[]), 0);
    }
    assert_eq!(answer(&[0x04], &[i32::MAX, 1], &[], &[]), 9);
    assert_eq!(answer(&[0x04], &[i32::MIN, -1], &[], &[]), 9);
    assert_eq!(answer(&[0x04], &[i32::MAX, i32::MIN], &[], &[]), 0);
    assert_eq!(answer(&[0x05], &[i32::MIN, -1], &[], &[]), 9);
    assert_eq!(answer(&[0x05], &[65_536, 32_768], &[], &[]), 9);
    assert_eq!(answer(&[0x05], &[65_536, -32_768], &[], &[]), 0);
}

#[test]
fn what_numbers_do() {
    let stack_after = |code: &[u8], stack: &[i32]| {
        let mut lent = with_record(code, Rec { stack, environment: &[7, 8], ..Rec::default() });
        assert_eq!(number(calls::ask_record(&mut lent, 0)), 0);
        let state = calls::view(&lent).unwrap();
        let (_, record) = state.records().in_use().next().unwrap();
        record.stack().collect::<Vec<_>>()
    };
    assert_eq!(stack_after(&[0x01, 0xFF, 0xFF, 0xFF, 0xFE], &[3]), [-2, 3]);
    assert_eq!(stack_after(&[0x02, 0], &[]), [7]);
    assert_eq!(stack_after(&[0x02, 1], &[]), [8]);
    assert_eq!(stack_after(&[0x04], &[3, 4, 5]), [7, 5]);
    assert_eq!(stack_after(&[0x05], &[3, -4, 5]), [-12, 5]);
    assert_eq!(stack_after(&[0x06], &[3, 4, 5]), [1, 5]);
    assert_eq!(stack_after(&[0x06], &[4, 4]), [1]);
    assert_eq!(stack_after(&[0x06], &[5, 4]), [0]);
}

#[test]
fn appends() {
    let (put, get, close, hput) = ([0x10, 0], [0x11, 0], [0x15, 0], [0x18, 0, 255]);
    let hcase = [0x19, 0, 1, 0, 0];
    assert_eq!(answer(&put, &[], &[], &[]), 5);
    assert_eq!(answer(&put, &[1], &[], &[]), 8);
    assert_eq!(answer(&[0x10, 8], &[1], &[], ONE), 8);
    assert_eq!(answer_full(&put, &[], ONE), 5);
    assert_eq!(answer_full(&put, &[1], ONE), 13);
    assert_eq!(answer(&put, &[1], &[], ONE), 0);
    assert_eq!(answer(&get, &MANY, &[], &[]), 6);
    assert_eq!(answer(&get, &MANY[1..], &[], &[]), 8);
    assert_eq!(answer_full(&get, &MANY, ONE), 6);
    assert_eq!(answer_full(&get, &MANY[1..], ONE), 13);
    assert_eq!(answer(&get, &MANY[1..], &[], ONE), 0);
    for code in [&close[..], &hput, &hcase] {
        assert_eq!(answer(code, &MANY, &[], &[]), 8);
        assert_eq!(answer_full(code, &MANY, TWO), 13);
        assert_eq!(answer(code, &MANY, &[], TWO), 0);
    }
}

#[test]
fn halt() {
    assert_eq!(answer(&[0x16, 1], &[1], &[], ONE), 8);
    assert_eq!(answer_full(&[0x16, 0], &[1], TWO), 10);
    assert_eq!(answer_full(&[0x16, 0], &[1], ONE), 11);
    assert_eq!(answer_full(&[0x16, 0], &[], ONE), 13);
    assert_eq!(answer(&[0x16, 0], &[], &[9], ONE), 0);
}

#[test]
fn split() {
    let split = |c, a, b| [0x12, c, a, b];
    assert_eq!(answer(&split(1, 2, 3), &[], &[], ONE), 8);
    assert_eq!(answer(&split(0, 8, 3), &[], &[], ONE), 8);
    assert_eq!(answer(&split(0, 3, 8), &[], &[], ONE), 8);
    assert_eq!(answer(&split(0, 3, 3), &[], &[], ONE), 8);
    assert_eq!(answer(&split(0, 0, 0), &[], &[], ONE), 8);
    assert_eq!(answer(&split(0, 1, 2), &[], &[], TWO), 8);
    assert_eq!(answer(&split(0, 2, 1), &[], &[], TWO), 8);
    assert_eq!(answer_full(&split(0, 2, 3), &[1], TWO), 11);
    assert_eq!(answer_full(&split(0, 2, 3), &[], TWO), 13);
    assert_eq!(answer(&split(0, 2, 3), &[], &[], TWO), 0);
    assert_eq!(answer(&split(0, 0, 3), &[], &[], TWO), 0);
    assert_eq!(answer(&split(0, 3, 0), &[], &[], TWO), 0);
}

#[test]
fn fork() {
    let fork = |c, a, m, b, n| [0x13, c, a, m, 0, 0, b, n, 0, 0];
    assert_eq!(answer(&fork(3, 0, 0, 0, 0), &[], &[], THREE), 8);
    assert_eq!(answer(&fork(0, 8, 0b010, 3, 0b100), &[], &[], THREE), 8);
    assert_eq!(answer(&fork(0, 3, 0b010, 8, 0b100), &[], &[], THREE), 8);
    assert_eq!(answer(&fork(0, 1, 0b010, 3, 0b100), &[], &[], THREE), 8);
    assert_eq!(answer(&fork(0, 3, 0b010, 2, 0b100), &[], &[], THREE), 8);
    assert_eq!(answer(&fork(0, 0, 0b001, 3, 0), &[], &[], THREE), 8);
    assert_eq!(answer(&fork(0, 3, 0b001, 3, 0b110), &[1], &[], THREE), 10);
    assert_eq!(answer(&fork(0, 3, 0b110, 3, 0b010), &[1], &[], THREE), 10);
    assert_eq!(answer(&fork(0, 3, 0b010, 3, 0), &[1], &[], THREE), 10);
    assert_eq!(answer(&fork(0, 3, 0b010, 3, 0b10100), &[1], &[], THREE), 10);
    assert_eq!(answer_full(&fork(0, 3, 0b010, 3, 0b100), &[1], THREE), 11);
    assert_eq!(answer_full(&fork(0, 3, 0b010, 3, 0b100), &[], THREE), 13);
    assert_eq!(answer(&fork(0, 3, 0b010, 3, 0b100), &[], &[], THREE), 0);
    assert_eq!(answer(&fork(0, 0, 0b010, 0, 0b100), &[], &[], THREE), 0);
    assert_eq!(answer(&fork(0, 2, 0b010, 1, 0b100), &[], &[], THREE), 0);
}

#[test]
fn plug() {
    let plug = |a, m, n| [0x14, a, m, 0, 0, n, 0, 0];
    assert_eq!(answer(&plug(8, 0b01, 0b10), &[], &[], TWO), 8);
    assert_eq!(answer(&plug(0, 0b01, 0b10), &[], &[], TWO), 8);
    assert_eq!(answer(&plug(1, 0b01, 0b10), &[], &[], TWO), 8);
    assert_eq!(answer(&plug(1, 0b01, 0), &[1], &[], TWO), 10);
    assert_eq!(answer(&plug(2, 0b11, 0b10), &[1], &[], TWO), 10);
    assert_eq!(answer(&plug(2, 0b01, 0), &[1], &[], TWO), 10);
    assert_eq!(answer(&plug(2, 0b01, 0b1010), &[1], &[], TWO), 10);
    assert_eq!(answer(&plug(2, 0b01, 0b10), &[1], &[], TWO), 11);
    assert_eq!(answer(&plug(2, 0b01, 0b10), &[], &[], TWO), 0);
}

/// Takes pairs of ends, all given up, until so many are free.
fn leave_free(lent: &mut [u8], free: usize, taken: usize) {
    for e in (taken..64 - free).step_by(2) {
        put_end(lent, e, e as u8 + 1, &[CLOSE]);
        put_end(lent, e + 1, e as u8, &[CLOSE]);
    }
}

#[test]
fn nothing_free() {
    for (free, plug, split) in [(0, 15, 15), (2, 0, 15), (4, 0, 0)] {
        let mut lent = with_record(&[0x14, 1, 1, 0, 0, 0, 0, 0], Rec { slots: ONE, ..Rec::default() });
        leave_free(&mut lent, free, 2);
        assert_eq!(ask(lent), plug);
        let mut lent = with_record(&[0x12, 0, 1, 2], Rec { slots: ONE, ..Rec::default() });
        leave_free(&mut lent, free, 2);
        assert_eq!(ask(lent), split);
    }
    let mut lent = with_record(&[0x14, 0, 0, 0, 0, 0, 0, 0], Rec::default());
    for r in 1..32 {
        put_record(&mut lent, r, Rec::default());
    }
    assert_eq!(ask(lent.clone()), 15);
    lent[record_at(31)] = 0;
    assert_eq!(ask(lent), 0);
}

#[test]
fn same() {
    let same = |c, d| [0x17, c, d];
    assert_eq!(answer(&same(0, 2), &[1], &[], TWO), 8);
    assert_eq!(answer(&same(2, 0), &[1], &[], TWO), 8);
    assert_eq!(answer(&same(0, 8), &[1], &[], TWO), 8);
    assert_eq!(answer_full(&same(0, 1), &[1], THREE), 10);
    assert_eq!(answer_full(&same(0, 0), &[1], TWO), 10);
    assert_eq!(answer_full(&same(0, 1), &[1], TWO), 11);
    assert_eq!(answer_full(&same(0, 0), &[], ONE), 12);
    assert_eq!(answer_full(&same(0, 1), &[], TWO), 14);
    assert_eq!(answer_full(&same(1, 0), &[], TWO), 14);
    assert_eq!(answer(&same(0, 1), &[], &[5], TWO), 0);
}

#[test]
fn same_of_two_partners() {
    let mut lent = memory(&[0x17, 0, 1]);
    put_record(&mut lent, 0, Rec { slots: &[(0, 6), (1, 9)], ..Rec::default() });
    put_end(&mut lent, 6, 9, &[value(1)]);
    put_end(&mut lent, 9, 6, &[]);
    assert_eq!(ask(lent), 12);
}

#[test]
fn same_makes_partners_and_keeps_their_queues() {
    let mut lent = memory(&[0x17, 0, 1]);
    put_record(&mut lent, 0, Rec { slots: &[(0, 0), (1, 2)], ..Rec::default() });
    put_end(&mut lent, 0, 1, &[]);
    put_end(&mut lent, 1, 0, &[value(5), CLOSE]);
    put_end(&mut lent, 2, 3, &[]);
    put_end(&mut lent, 3, 2, &[value(7), CLOSE]);
    assert_eq!(number(calls::ask_record(&mut lent, 0)), 0);
    let mut expected = memory(&[0x17, 0, 1]);
    put_end(&mut expected, 1, 3, &[value(5), CLOSE]);
    put_end(&mut expected, 3, 1, &[value(7), CLOSE]);
    assert_eq!(lent, expected);
    assert_eq!(number(calls::ask_end(&mut lent, 1)), 18, "5 and 7 face each other");
}

#[test]
fn run() {
    let run = |n: u8, slots: &[u8]| [&[0x1A, 0, 0, n, slots.len() as u8], slots].concat();
    assert_eq!(answer(&run(2, &[9]), &[1], &[], TWO), 5);
    assert_eq!(answer(&run(17, &[0, 1]), &MANY, &[], TWO), 5);
    assert_eq!(answer(&run(1, &[0, 9]), &[1], &[], TWO), 8);
    assert_eq!(answer(&run(1, &[0, 0, 2]), &[1], &[], TWO), 8);
    assert_eq!(answer(&run(1, &[0]), &[1], &[], TWO), 10);
    assert_eq!(answer(&run(1, &[0, 1, 0]), &[1], &[], TWO), 10);
    assert_eq!(answer(&run(1, &[0; 255]), &[1], &[], ONE), 10);
    assert_eq!(answer(&run(16, &[1, 0]), &MANY, &MANY, TWO), 0);
    let mut lent = with_record(&run(1, &[1, 0]), Rec { stack: &[5, 6], environment: &[7], slots: TWO, ..Rec::default() });
    assert_eq!(number(calls::ask_record(&mut lent, 0)), 0);
    let turned = with_record(&run(1, &[1, 0]), Rec { stack: &[6], environment: &[5], slots: &[(0, 2), (1, 0)], ..Rec::default() });
    assert_eq!(lent, turned);
}

/// Asks end 0, and then end 1 of the same memory: the answers are the same.
fn ask_ends(lent: &[u8]) -> u8 {
    let [first, second] = [0, 1].map(|end| {
        let mut lent = lent.to_vec();
        (number(calls::ask_end(&mut lent, end)), lent)
    });
    assert!(first == second, "either end of the pair asks for the same step");
    assert_eq!(first.0 != 0, first.1 == lent, "done, or as found");
    assert!(calls::view(&first.1).is_ok());
    first.0
}

/// Record 0 waits on end 0 at an instruction; the queue of end 1 begins with a datum.
fn meeting(code: &[u8], stack: &[i32], queue: &[Cell]) -> Vec<u8> {
    let mut lent = memory(code);
    put_record(&mut lent, 0, Rec { status: WAITING, stack, slots: ONE, ..Rec::default() });
    put_end(&mut lent, 0, 1, &[wait(0)]);
    put_end(&mut lent, 1, 0, queue);
    lent
}

#[test]
fn steps_at_ends() {
    let mut lent = memory(&[0x03]);
    for (end, expected) in [(0, 16), (63, 16), (64, 16), (u32::MAX, 16)] {
        assert_eq!(number(calls::ask_end(&mut lent, end)), expected);
    }
    let get = |queue: &[Cell]| ask_ends(&meeting(&[0x11, 0], &MANY[1..], queue));
    assert_eq!(get(&[value(-1), CLOSE]), 0);
    assert_eq!(get(&[handle(0), CLOSE]), 18);
    assert_eq!(get(&[handle(0), value(1), CLOSE]), 18, "only the head is looked at");
    assert_eq!(get(&[CLOSE]), 18);
    let hcase = |queue: &[Cell]| ask_ends(&meeting(&[0x19, 0, 2, 0, 0, 0, 9], &MANY, queue));
    assert_eq!(hcase(&[handle(0), CLOSE]), 0);
    assert_eq!(hcase(&[handle(1), CLOSE]), 0);
    assert_eq!(hcase(&[handle(2), CLOSE]), 18);
    assert_eq!(hcase(&[value(0), CLOSE]), 18);
    let mut lent = memory(&[]);
    put_end(&mut lent, 0, 1, &[value(5), CLOSE]);
    put_end(&mut lent, 1, 0, &[CLOSE]);
    assert_eq!(ask_ends(&lent), 18);
    put_end(&mut lent, 0, 1, &[CLOSE]);
    lent[cell_at(0, 1)..][..8].fill(0);
    assert_eq!(ask_ends(&lent), 0);
}

#[test]
fn empty_queues_and_waits_that_face_each_other() {
    let mut lent = memory(&[0x11, 0]);
    put_record(&mut lent, 0, Rec { status: WAITING, slots: ONE, ..Rec::default() });
    put_record(&mut lent, 1, Rec { slots: &[(0, 1)], ..Rec::default() });
    put_end(&mut lent, 0, 1, &[wait(0)]);
    put_end(&mut lent, 1, 0, &[]);
    assert_eq!(ask_ends(&lent), 17);
    assert_eq!(number(calls::ask_record(&mut lent, 1)), 0);
    assert_eq!(ask_ends(&lent), 18);
}

#[test]
fn a_fork_is_released() {
    let code = [0x13, 0, 0, 0, 0, 7, 3, 0b10, 0, 9];
    let mut lent = memory(&code);
    put_record(&mut lent, 0, Rec { status: WAITING, environment: &[8, 9], slots: &[(0, 0), (1, 2)], ..Rec::default() });
    put_end(&mut lent, 0, 1, &[wait(0)]);
    put_end(&mut lent, 1, 0, &[common::split(21, 20)]);
    for (e, partner, queue) in
        [(2, 3, &[][..]), (3, 2, &[CLOSE]), (20, 22, &[]), (21, 23, &[]), (22, 20, &[CLOSE]), (23, 21, &[CLOSE])]
    {
        put_end(&mut lent, e, partner, queue);
    }
    let mut crowded = lent.clone();
    for r in 1..32 {
        put_record(&mut crowded, r, Rec::default());
    }
    assert_eq!(ask_ends(&crowded), 19);
    crowded[record_at(17)] = 0;
    assert_eq!(ask_ends(&crowded), 0);
    assert_eq!(ask_ends(&lent), 0);
    assert_eq!(number(calls::ask_end(&mut lent, 1)), 0);
    let mut expected = memory(&code);
    put_record(&mut expected, 0, Rec { place: 7, environment: &[8, 9], slots: &[(0, 21)], ..Rec::default() });
    put_record(&mut expected, 1, Rec { place: 9, environment: &[8, 9], slots: &[(1, 2), (3, 20)], ..Rec::default() });
    for (e, partner, queue) in
        [(2, 3, &[][..]), (3, 2, &[CLOSE]), (20, 22, &[]), (21, 23, &[]), (22, 20, &[CLOSE]), (23, 21, &[CLOSE])]
    {
        put_end(&mut expected, e, partner, queue);
    }
    assert_eq!(lent, expected);
}

#[test]
fn a_split_takes_the_four_lowest_free_ends() {
    let code = [0x12, 1, 1, 0];
    let mut lent = memory(&code);
    put_record(&mut lent, 0, Rec { slots: &[(1, 2)], ..Rec::default() });
    put_end(&mut lent, 2, 5, &[value(3)]);
    put_end(&mut lent, 5, 2, &[CLOSE]);
    assert_eq!(number(calls::ask_record(&mut lent, 0)), 0);
    let mut expected = memory(&code);
    put_record(&mut expected, 0, Rec { place: 4, slots: &[(1, 0), (0, 3)], ..Rec::default() });
    put_end(&mut expected, 2, 5, &[value(3), common::split(1, 4)]);
    put_end(&mut expected, 5, 2, &[CLOSE]);
    for (e, partner) in [(0, 1), (1, 0), (3, 4), (4, 3)] {
        put_end(&mut expected, e, partner, &[]);
    }
    assert_eq!(lent, expected);
}
