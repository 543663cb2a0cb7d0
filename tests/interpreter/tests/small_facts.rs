//! Document 01's twelve small facts, and its one run in full.

mod common;

use common::*;
use interpreter::calls;
use interpreter::ends::Item;
use interpreter::numbers::{EndNumber, RecordNumber, SlotNumber};
use interpreter::printing;
use interpreter::records::Status;
use interpreter::state::State;

/// plug 0, both branches with no slot, the first at `first`, the second at `second`.
fn plug(first: u8, second: u8) -> [u8; 8] {
    [0x14, 0, 0, 0, first, 0, 0, second]
}

fn end_in(state: &State, record: u32, slot: u8) -> Option<u8> {
    let record = RecordNumber::new(record).unwrap();
    state.records()[record].slots().end(SlotNumber(slot)).map(EndNumber::number)
}

fn place_of(state: &State, record: u32) -> u16 {
    state.records()[RecordNumber::new(record).unwrap()].place()
}

fn queue_length(state: &State, end: u32) -> usize {
    state.ends()[EndNumber::new(end).unwrap()].queue().len()
}

#[test]
fn fact_1_plug_at_the_start_gives_records_0_and_1_the_ends_0_and_1() {
    let mut state = loaded(&plug(8, 8));
    assert_eq!(state.ask_record(0), Ok("plug"));
    assert_eq!(end_in(&state, 0, 0), Some(0));
    assert_eq!(end_in(&state, 1, 0), Some(1));
    assert_eq!(state.free_ends().count, 62);
    assert_eq!(state.free_ends().lowest, 2);
}

#[test]
fn fact_2_the_eighth_put_is_done_the_ninth_gets_13() {
    let mut code = plug(8, 255).to_vec();
    for _ in 0..9 {
        code.extend([0x01, 0, 0, 0, 5, 0x10, 0]);
    }
    let mut state = loaded(&code);
    assert_eq!(state.ask_record(0), Ok("plug"));
    for put in 1..=8 {
        assert_eq!(state.ask_record(0), Ok("cst"));
        assert_eq!(state.ask_record(0), Ok("put"), "put {put}");
    }
    assert_eq!(state.ask_record(0), Ok("cst"));
    assert_eq!(number(state.ask_record(0)), 13);
    assert_eq!(queue_length(&state, 0), 8);
}

#[test]
fn fact_3_a_waiting_record_gets_3() {
    let mut state = loaded(&[&plug(8, 8)[..], &[0x11, 0]].concat());
    assert_eq!(state.ask_record(0), Ok("plug"));
    assert_eq!(state.ask_record(0), Ok("get"));
    assert_eq!(number(state.ask_record(0)), 3);
}

#[test]
fn fact_4_value_4_meets_a_get() {
    let mut state = loaded(&[&plug(8, 15)[..], &[0x01, 0, 0, 0, 4, 0x10, 0], &[0x11, 0]].concat());
    for (record, name) in [(0, "plug"), (0, "cst"), (0, "put"), (1, "get")] {
        assert_eq!(state.ask_record(record), Ok(name));
    }
    assert_eq!(state.ask_end(0), Ok(Item::Value(4)));
    let record = &state.records()[RecordNumber::new(1).unwrap()];
    assert_eq!(record.status(), Status::Running);
    assert_eq!(record.place(), 17);
    assert!(record.stack().eq([4]));
    assert_eq!((queue_length(&state, 0), queue_length(&state, 1)), (0, 0));
}

#[test]
fn fact_5_heads_5_and_7_get_18() {
    let put = |n| [0x01, 0, 0, 0, n, 0x10, 0];
    let mut state = loaded(&[&plug(8, 15)[..], &put(5), &put(7)].concat());
    for (record, name) in [(0, "plug"), (0, "cst"), (0, "put"), (1, "cst"), (1, "put")] {
        assert_eq!(state.ask_record(record), Ok(name));
    }
    assert_eq!(number(state.ask_end(0)), 18);
    assert_eq!(number(state.ask_end(1)), 18);
}

#[test]
fn fact_6_same_with_an_unread_own_value_gets_14() {
    let mut code = plug(8, 255).to_vec();
    code.extend([0x14, 1, 0b1, 0, 16, 0, 0, 255]);
    code.extend([0x01, 0, 0, 0, 5, 0x10, 0, 0x17, 0, 1]);
    let mut state = loaded(&code);
    for name in ["plug", "plug", "cst", "put"] {
        assert_eq!(state.ask_record(0), Ok(name));
    }
    assert_eq!(number(state.ask_record(0)), 14);
}

#[test]
fn fact_7_same_0_0_with_only_slot_0_held_gets_12() {
    let mut state = loaded(&[&plug(8, 255)[..], &[0x17, 0, 0]].concat());
    assert_eq!(state.ask_record(0), Ok("plug"));
    assert_eq!(number(state.ask_record(0)), 12);
}

#[test]
fn fact_8_plug_with_one_slot_in_both_m_gets_10() {
    let mut state = loaded(&[&plug(8, 255)[..], &[0x14, 1, 0b1, 0, 0, 0b1, 0, 0]].concat());
    assert_eq!(state.ask_record(0), Ok("plug"));
    assert_eq!(number(state.ask_record(0)), 10);
}

#[test]
fn fact_9_two_closes_free_two_ends() {
    let mut state = loaded(&[&plug(8, 8)[..], &[0x15, 0]].concat());
    for (record, name) in [(0, "plug"), (0, "close"), (1, "close")] {
        assert_eq!(state.ask_record(record), Ok(name));
    }
    assert_eq!(state.free_ends().count, 62);
    assert_eq!(state.ask_end(1), Ok(Item::Close));
    assert_eq!(state.free_ends().count, 64);
}

#[test]
fn fact_10_the_largest_number_plus_1_gets_9() {
    let mut state = loaded(&[0x01, 0x7F, 0xFF, 0xFF, 0xFF, 0x01, 0, 0, 0, 1, 0x04]);
    assert_eq!(state.ask_record(0), Ok("cst"));
    assert_eq!(state.ask_record(0), Ok("cst"));
    assert_eq!(number(state.ask_record(0)), 9);
}

#[test]
fn fact_11_handle_2_against_k_2_gets_18_and_handle_1_runs_at_the_second_place() {
    let with_handle = |n| loaded(&[&plug(8, 11)[..], &[0x18, 0, n], &[0x19, 0, 2, 0, 77, 0, 99]].concat());
    for (n, outcome) in [(2, 18), (1, 0)] {
        let mut state = with_handle(n);
        for (record, name) in [(0, "plug"), (0, "hput"), (1, "hcase")] {
            assert_eq!(state.ask_record(record), Ok(name));
        }
        assert_eq!(number(state.ask_end(0)), outcome);
        assert_eq!(place_of(&state, 1), if outcome == 0 { 99 } else { 11 });
    }
}

#[test]
fn fact_12_pushing_10_then_20_and_run_with_n_2_makes_environment_place_0_hold_10() {
    let mut state = loaded(&[0x01, 0, 0, 0, 10, 0x01, 0, 0, 0, 20, 0x1A, 0, 15, 2, 0, 0x02, 0]);
    for name in ["cst", "cst", "run", "access"] {
        assert_eq!(state.ask_record(0), Ok(name));
    }
    let record = &state.records()[RecordNumber::new(0).unwrap()];
    assert!(record.environment().eq([10, 20]));
    assert!(record.stack().eq([10]));
}

const TRACE: &str = "\
1 R0 plug
2 R1 get
3 R0 cst
4 R0 put
5 E0 value 4
6 R0 halt
7 R1 store
8 R1 halt
9 E0 close
finished 9 33
";

#[test]
fn the_run_in_full() {
    let image = image_of(&ONE_RUN);
    assert_eq!(image.len(), 512);
    assert_eq!(image[..4], [0x01, 0x00, 0x00, 0x16]);
    assert_eq!(image[4..26], ONE_RUN);
    assert!(image[26..510].iter().all(|&byte| byte == 0));
    assert_eq!(image[510..], [0xC7, 0x9E]);
    let mut printed = Vec::new();
    printing::trace(&image, &mut printed).unwrap();
    assert_eq!(String::from_utf8(printed).unwrap(), TRACE);
}

#[test]
fn the_run_in_full_on_a_lent_memory() {
    let mut lent = vec![0xAA; SIZE];
    assert_eq!(calls::load(&mut lent, &image_of(&ONE_RUN)), Ok(()));
    let run = calls::run(&mut lent, 60_000, 0).unwrap();
    assert_eq!(run.to_string(), "finished 9 33");
    assert_eq!(lent, memory(&ONE_RUN));
}
