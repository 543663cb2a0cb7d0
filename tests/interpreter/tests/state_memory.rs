//! The state memory byte by byte, and damaged memories: each limit just kept and just passed, each clause of soundness broken
//! while the others hold, and bytes changed at random.

mod common;

use common::*;
use interpreter::calls;
use interpreter::memory as state_memory;
use interpreter::soundness::{s2, s3, s4, s5, sound};
use interpreter::state::State;

/// Is the memory sound? If so it must be the memory of the state that it holds; if not, every call must get 1 and change nothing.
fn is_sound(lent: &[u8]) -> bool {
    let mut asked = lent.to_vec();
    match calls::view(lent) {
        Ok(state) => {
            assert!(state_memory::write(&state) == lent, "what is read is written as it was");
            assert!(sound(&state) && s2(&state) && s3(&state) && s4(&state) && s5(&state));
            true
        }
        Err(refusal) => {
            assert_eq!(refusal.number(), 1);
            assert_eq!(number(calls::ask_record(&mut asked, 99)), 1);
            assert_eq!(number(calls::ask_end(&mut asked, 99)), 1);
            assert_eq!(number(calls::run(&mut asked, 1, 99)), 1);
            assert_eq!(number(calls::free_ends(&asked)), 1);
            assert!(asked == lent, "a refused call leaves the memory as found");
            false
        }
    }
}

/// A memory with a code, records and ends.
fn built(code: &[u8], records: Vec<(usize, Rec<'_>)>, ends: &[(usize, u8, &[Cell])]) -> Vec<u8> {
    let mut lent = memory(code);
    for (r, record) in records {
        put_record(&mut lent, r, record);
    }
    for &(e, partner, queue) in ends {
        put_end(&mut lent, e, partner, queue);
    }
    lent
}

/// The memory with some bytes changed.
fn changed(lent: &[u8], changes: &[(usize, u8)]) -> Vec<u8> {
    let mut lent = lent.to_vec();
    for &(at, byte) in changes {
        assert_ne!(lent[at], byte);
        lent[at] = byte;
    }
    lent
}

#[test]
fn the_start_state_in_bytes() {
    assert_eq!(state_memory::STATE_SIZE, SIZE);
    let start = state_memory::write(&State::default());
    let mut expected = memory(&[]);
    put_record(&mut expected, 0, Rec::default());
    assert_eq!(start, expected);
    assert!(is_sound(&start));
    assert_eq!(start.iter().filter(|&&byte| byte != 0).count(), 9);
}

#[test]
fn a_memory_of_another_length_gets_24() {
    for length in [0, 1, SIZE - 1, SIZE + 1] {
        let mut lent = vec![0; length];
        assert_eq!(number(calls::load(&mut lent, &[])), 24);
        assert_eq!(number(calls::ask_record(&mut lent, 99)), 24);
        assert_eq!(number(calls::ask_end(&mut lent, 99)), 24);
        assert_eq!(number(calls::run(&mut lent, 1, 99)), 24);
        assert_eq!(number(calls::free_ends(&lent)), 24);
    }
    assert_eq!(number(calls::load(&mut vec![0; SIZE], &[])), 20);
}

#[test]
fn memories_of_one_byte_repeated() {
    assert!(!is_sound(&[0; SIZE]), "all ends in use with partner 0");
    assert!(!is_sound(&[1; SIZE]));
    assert!(!is_sound(&[255; SIZE]));
    assert!(is_sound(&memory(&[])), "nothing at all");
}

#[test]
fn s1_the_code() {
    assert!(is_sound(&memory(&[7; 8_156])));
    assert!(!is_sound(&changed(&memory(&[7; 8_156]), &[(0, 0xDD)])), "length 8,157");
    assert!(!is_sound(&changed(&memory(&[7; 8_156]), &[(1, 0xFF)])));
    assert!(!is_sound(&changed(&memory(&[7]), &[(3, 1)])), "a byte behind the code");
    assert!(!is_sound(&changed(&memory(&[7]), &[(8_157, 1)])), "the last byte behind the code");
    assert!(is_sound(&changed(&memory(&[7]), &[(2, 255)])));
}

#[test]
fn s1_records() {
    let running = || Rec { stack: &[1; 16], environment: &[2; 16], place: 65_535, ..Rec::default() };
    let lent = built(&[], vec![(31, running())], &[]);
    let at = record_at(31);
    assert!(is_sound(&lent));
    assert!(!is_sound(&changed(&lent, &[(at, 3)])), "no such status");
    assert!(!is_sound(&changed(&lent, &[(at, 0)])), "a free record that is not empty");
    assert!(!is_sound(&changed(&lent, &[(at + 3, 17)])), "17 on the stack");
    assert!(!is_sound(&changed(&lent, &[(at + 4, 17)])), "17 in the environment");
    assert!(!is_sound(&changed(&lent, &[(at + 4, 255)])));
    assert!(!is_sound(&changed(&lent, &[(at + 3, 15)])), "a value behind the stack");
    assert!(!is_sound(&changed(&lent, &[(at + 4, 15)])), "a value behind the environment");
    assert!(!is_sound(&changed(&lent, &[(at + 5, 1)])), "a slot with a free end");
    assert!(!is_sound(&changed(&lent, &[(at + 5, 65)])), "a slot with end 64");
    for i in 0..141 {
        let free = built(&[], vec![], &[]);
        let sound_alone = i == 0;
        assert_eq!(is_sound(&changed(&free, &[(record_at(5) + i, 1)])), sound_alone, "byte {i} of a free record");
    }
}

#[test]
fn s1_ends_and_items() {
    let with_item = |item: Cell| built(&[], vec![], &[(4, 9, &[item, CLOSE]), (9, 4, &[CLOSE])]);
    assert!(is_sound(&with_item(value(i32::MIN))));
    assert!(is_sound(&with_item(handle(255))));
    for i in 0..8 {
        let of_value = changed(&with_item(value(0)), &[(cell_at(4, 0) + i, 6)]);
        assert_eq!(is_sound(&of_value), (1..5).contains(&i), "byte {i} of a value");
        let of_handle = changed(&with_item(handle(0)), &[(cell_at(4, 0) + i, 6)]);
        assert_eq!(is_sound(&of_handle), i == 1, "byte {i} of a handle");
        assert!(!is_sound(&changed(&with_item(value(0)), &[(cell_at(4, 1) + i, 6)])), "byte {i} of a close");
        assert!(!is_sound(&changed(&with_item(value(0)), &[(cell_at(4, 2) + i, 6)])), "byte {i} of an unused cell");
        assert!(!is_sound(&changed(&with_item(value(0)), &[(cell_at(5, 0) + i, 6)])), "byte {i} of a free end's cell");
    }
    assert!(!is_sound(&with_item([0; 8])), "no item inside a queue");
    let full = built(
        &[],
        vec![],
        &[(4, 9, &[value(1), value(1), value(1), value(1), value(1), value(1), value(1), CLOSE]), (9, 4, &[CLOSE])],
    );
    assert!(is_sound(&full));
    assert!(!is_sound(&changed(&full, &[(12_742 + 4, 9)])), "9 items");
    assert!(!is_sound(&changed(&full, &[(12_742 + 4, 7)])), "an item behind the queue");
    assert!(!is_sound(&changed(&full, &[(12_678 + 5, 1)])), "a free end with a partner");
    assert!(!is_sound(&changed(&full, &[(12_742 + 5, 1)])), "a free end with an item");
    assert!(!is_sound(&changed(&full, &[(12_678 + 4, 64)])), "partner 64");
}

#[test]
fn s2_partners() {
    let closed = |e, partner| (e, partner, &[CLOSE][..]);
    assert!(is_sound(&built(&[], vec![], &[closed(0, 63), closed(63, 0)])));
    assert!(!is_sound(&built(&[], vec![], &[closed(7, 7)])), "its own partner");
    assert!(!is_sound(&built(&[], vec![], &[closed(7, 0)])), "partner of a free end");
    assert!(!is_sound(&built(&[], vec![], &[closed(0, 1), closed(1, 2), closed(2, 0)])), "three in a ring");
    assert!(is_sound(&built(&[], vec![], &[closed(0, 2), closed(2, 0), closed(1, 3), closed(3, 1)])));
}

#[test]
fn s3_each_end_stands_once() {
    let holds = |slots| Rec { slots, ..Rec::default() };
    let open: &[Cell] = &[];
    let pair = [(0, 1, open), (1, 0, &[CLOSE])];
    assert!(is_sound(&built(&[], vec![(0, holds(&[(3, 0)]))], &pair)));
    assert!(!is_sound(&built(&[], vec![], &pair)), "an end that stands nowhere");
    assert!(!is_sound(&built(&[], vec![(0, holds(&[(3, 0), (4, 0)]))], &pair)), "in two slots");
    assert!(!is_sound(&built(&[], vec![(0, holds(&[(3, 0)])), (1, holds(&[(3, 0)]))], &pair)), "in two records");
    assert!(!is_sound(&built(&[], vec![(0, holds(&[(3, 0), (4, 1)]))], &pair)), "held and given up");
    assert!(!is_sound(&built(&[], vec![(0, holds(&[(3, 0), (4, 2)]))], &pair)), "a free end held");
    assert!(is_sound(&built(&[], vec![(0, holds(&[(3, 0), (4, 1)]))], &[(0, 1, open), (1, 0, open)])), "both ends of a pair");
    let away: Vec<(usize, u8, &[Cell])> = vec![(2, 3, open), (3, 2, &[CLOSE]), (4, 5, open), (5, 4, &[CLOSE])];
    let with_split = |item: &[Cell], away: &[(usize, u8, &[Cell])]| {
        let mut lent = built(&[], vec![(0, holds(&[(3, 0)]))], &[(0, 1, open), (1, 0, item)]);
        for &(e, partner, queue) in away {
            put_end(&mut lent, e, partner, queue);
        }
        lent
    };
    assert!(is_sound(&with_split(&[split(2, 4)], &away)));
    assert!(is_sound(&with_split(&[value(1), split(4, 2)], &away)));
    assert!(!is_sound(&with_split(&[split(2, 2)], &away)), "one end twice");
    assert!(!is_sound(&with_split(&[split(2, 6)], &away)), "a free end sent away, and 4 nowhere");
    assert!(!is_sound(&with_split(&[split(2, 64)], &away)));
    assert!(!is_sound(&with_split(&[split(2, 0)], &away)), "held and sent away");
    assert!(!is_sound(&with_split(&[split(2, 3)], &away)), "given up and sent away");
    assert!(is_sound(&with_split(&[split(2, 3)], &[(2, 3, open), (3, 2, open)])));
}

#[test]
fn s4_what_stands_last() {
    let waiting = || Rec { status: WAITING, slots: &[(0, 0)], ..Rec::default() };
    let lent = |queue: &[Cell], other: &[Cell]| built(&[0x11, 0], vec![(0, waiting())], &[(0, 1, queue), (1, 0, other)]);
    assert!(is_sound(&lent(&[wait(0)], &[CLOSE])));
    assert!(is_sound(&lent(&[value(1), wait(0)], &[value(1), CLOSE])));
    assert!(is_sound(&lent(&[value(1), value(1), value(1), value(1), value(1), value(1), value(1), wait(0)], &[CLOSE])));
    assert!(!is_sound(&lent(&[wait(0), value(1)], &[CLOSE])));
    assert!(!is_sound(&lent(&[wait(0), wait(0)], &[CLOSE])));
    assert!(!is_sound(&lent(&[wait(0)], &[CLOSE, CLOSE])));
    assert!(!is_sound(&lent(&[wait(0)], &[CLOSE, value(1)])));
    assert!(!is_sound(&lent(&[], &[CLOSE])), "a waiting record that no wait names");
    assert!(!is_sound(&lent(&[wait(1)], &[CLOSE])), "a wait that names a free record");
    assert!(!is_sound(&lent(&[wait(32)], &[CLOSE])));
    let running = Rec { slots: &[(0, 0)], ..Rec::default() };
    assert!(!is_sound(&built(&[0x11, 0], vec![(0, running)], &[(0, 1, &[wait(0)]), (1, 0, &[CLOSE])])), "a running record named");
    let other = Rec { slots: &[(0, 1)], ..Rec::default() };
    assert!(
        !is_sound(&built(&[0x11, 0], vec![(0, waiting()), (1, other)], &[(0, 1, &[]), (1, 0, &[wait(0)])])),
        "on another's end"
    );
    let both = Rec { status: WAITING, slots: &[(0, 0), (1, 1)], ..Rec::default() };
    assert!(!is_sound(&built(&[0x11, 0], vec![(0, both)], &[(0, 1, &[wait(0)]), (1, 0, &[wait(0)])])), "two waits");
}

#[test]
fn s5_where_a_record_waits() {
    let sound_at = |code: &[u8], place, stack: &[i32], slots: &[(usize, u8)]| {
        let record = Rec { status: WAITING, place, stack, slots, ..Rec::default() };
        let mut lent = built(code, vec![(0, record)], &[]);
        for &(_, end) in slots {
            let queue: &[Cell] = if end == 0 { &[wait(0)] } else { &[] };
            put_end(&mut lent, end.into(), end + 1, queue);
            put_end(&mut lent, usize::from(end) + 1, end, &[CLOSE]);
        }
        is_sound(&lent)
    };
    let one: &[(usize, u8)] = &[(0, 0)];
    let three: &[(usize, u8)] = &[(0, 0), (1, 2), (2, 4)];
    assert!(sound_at(&[0x11, 0], 0, &[1; 15], one));
    assert!(!sound_at(&[0x11, 0], 0, &[1; 16], one), "6");
    assert!(!sound_at(&[0x11, 0], 1, &[], one), "4: no instruction");
    assert!(!sound_at(&[0x11, 0], 2, &[], one), "4: not in the code");
    assert!(!sound_at(&[0x11], 0, &[], one), "4: past the code");
    assert!(!sound_at(&[0x10, 0], 0, &[1], one), "at a put");
    assert!(!sound_at(&[0x15, 0], 0, &[], one), "at a close");
    assert!(!sound_at(&[0x11, 1], 0, &[], one), "8: another slot, empty");
    assert!(!sound_at(&[0x11, 8], 0, &[], one), "8: a slot over 7");
    assert!(!sound_at(&[0x11, 1], 0, &[], three), "another slot, held");
    assert!(sound_at(&[0x19, 0, 1, 0, 0], 0, &[1; 16], three));
    assert!(!sound_at(&[0x19, 0, 0, 0, 0], 0, &[], three), "4: k = 0");
    assert!(!sound_at(&[0x19, 1, 1, 0, 0], 0, &[], three));
    let fork = |c, a, m, b, n| [0x13, c, a, m, 0, 0, b, n, 0, 0];
    assert!(sound_at(&fork(0, 0, 0b010, 0, 0b100), 0, &[], three));
    assert!(!sound_at(&fork(0, 1, 0b010, 0, 0b100), 0, &[], three), "8: a in its m");
    assert!(!sound_at(&fork(0, 0, 0b010, 2, 0b100), 0, &[], three), "8: b in its m");
    assert!(!sound_at(&fork(0, 8, 0b010, 0, 0b100), 0, &[], three), "8: a over 7");
    assert!(!sound_at(&fork(0, 0, 0b010, 0, 0b110), 0, &[], three), "10: overlap");
    assert!(!sound_at(&fork(0, 0, 0b010, 0, 0), 0, &[], three), "10: one lost");
    assert!(!sound_at(&fork(0, 0, 0b010, 0, 0b1100), 0, &[], three), "10: one not held");
    assert!(!sound_at(&fork(0, 3, 0b011, 3, 0b100), 0, &[], three), "10: c kept");
    assert!(!sound_at(&fork(0, 0, 0b010, 0, 0b100), 0, &[1], three), "11");
}

#[test]
fn bytes_changed_at_random() {
    let mut random = Random::new(1);
    let (mut sound_ones, mut others) = (0, 0);
    for _ in 0..150 {
        let mut state = loaded(&random_code(&mut random));
        state.run(random.below(300) as u16, 0).unwrap();
        let lent = state_memory::write(&state);
        assert!(is_sound(&lent));
        let used: Vec<usize> = (0..SIZE).filter(|&i| lent[i] != 0).collect();
        for _ in 0..20 {
            let mut damaged = lent.clone();
            for _ in 0..=random.below(2) {
                let at = if random.below(2) == 0 { used[random.below(used.len())] } else { 8_158 + random.below(SIZE - 8_158) };
                damaged[at] = match random.below(3) {
                    0 => random.byte(),
                    1 => damaged[at] ^ 1 << random.below(8),
                    _ => random.below(66) as u8,
                };
            }
            let counter = if is_sound(&damaged) { &mut sound_ones } else { &mut others };
            *counter += 1;
        }
    }
    assert!(sound_ones > 100 && others > 1_000, "{sound_ones} sound, {others} not");
}
