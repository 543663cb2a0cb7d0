//! Runs: the search, the budget, the next position and the verdict, held against a run that asks every position in turn.

mod common;

use common::*;
use interpreter::memory as state_memory;
use interpreter::run::{Run, Step, Verdict};
use interpreter::soundness::sound;
use interpreter::state::State;

/// Asks a position.
fn can_step(state: &mut State, position: u32) -> bool {
    if position < 32 { state.ask_record(position).is_ok() } else { state.ask_end(position - 32).is_ok() }
}

/// A run as document 01 tells it: every position is asked, upward and around.
fn plain_run(state: &mut State, budget: u16, start: u32) -> Run {
    let (mut steps, mut next) = (0, start);
    while steps < budget {
        let Some(position) = (0..96).map(|i| (next + i) % 96).find(|&position| can_step(state, position)) else { break };
        steps += 1;
        next = (position + 1) % 96;
    }
    let mut trial = state.clone();
    let something_can_step = (0..96).any(|position| can_step(&mut trial, position));
    let nothing_in_use = state.records().in_use().count() + state.ends().in_use().count() == 0;
    let verdict = match something_can_step {
        true => Verdict::Spent,
        false if nothing_in_use => Verdict::Finished,
        false => Verdict::Stuck,
    };
    Run { steps, next, verdict }
}

#[test]
fn runs_are_those_of_the_plain_search() {
    let mut random = Random::new(2);
    let mut verdicts = [0; 3];
    for i in 0..400 {
        let mut state = loaded(&if i % 8 == 0 { ONE_RUN.to_vec() } else { random_code(&mut random) });
        for _ in 0..8 {
            let budget = [0, 1, 2, 7, 40][random.below(5)];
            let start = random.below(96) as u32;
            let mut plain = state.clone();
            let expected = plain_run(&mut plain, budget, start);
            let run = state.run(budget, start).unwrap();
            assert_eq!(run, expected);
            assert!(state == plain, "the same state is reached");
            assert!(sound(&state), "soundness is kept");
            verdicts[run.verdict as usize] += 1;
        }
    }
    assert!(verdicts.iter().all(|&count| count > 10), "{verdicts:?} spent, finished, stuck");
}

#[test]
fn every_state_of_a_run_is_sound_and_its_memory_reads_back() {
    let mut random = Random::new(3);
    for _ in 0..60 {
        let mut state = loaded(&random_code(&mut random));
        let mut next = 0;
        for _ in 0..100 {
            let run = state.run(1, next).unwrap();
            let lent: [u8; SIZE] = state_memory::write(&state).try_into().unwrap();
            assert!(state_memory::read(&lent).as_ref() == Some(&state));
            next = run.next;
        }
    }
}

#[test]
fn start_positions() {
    let mut state = State::default();
    for start in 0..96 {
        assert_eq!(state.run(5, start), Ok(Run { steps: 0, next: start, verdict: Verdict::Stuck }));
    }
    for start in [96, 97, u32::MAX] {
        assert_eq!(number(state.run(5, start)), 25);
    }
}

#[test]
fn the_verdict_is_judged_on_the_state_reached() {
    let one_step = [0x03];
    let mut state = loaded(&[&[0x01, 0, 0, 0, 1], &one_step[..]].concat());
    assert_eq!(state.run(0, 7), Ok(Run { steps: 0, next: 7, verdict: Verdict::Spent }));
    assert_eq!(state.run(1, 95), Ok(Run { steps: 1, next: 1, verdict: Verdict::Spent }));
    assert_eq!(
        state.run(1, 1),
        Ok(Run { steps: 1, next: 1, verdict: Verdict::Stuck }),
        "the budget is just used, nothing can step"
    );
    assert_eq!(state.run(0, 1), Ok(Run { steps: 0, next: 1, verdict: Verdict::Stuck }));
    let mut finished = loaded(&[0x14, 0, 0, 0, 8, 0, 0, 8, 0x16, 0]);
    let run = finished.run(3, 0).unwrap();
    assert_eq!((run.steps, run.verdict), (3, Verdict::Spent), "no record is in use, but two closes can step");
    let run = finished.run(1, 63).unwrap();
    assert_eq!(run, Run { steps: 1, next: 33, verdict: Verdict::Finished });
}

#[test]
fn after_the_last_position_comes_position_0() {
    let mut lent = memory(&[]);
    put_end(&mut lent, 63, 0, &[CLOSE]);
    put_end(&mut lent, 0, 63, &[CLOSE]);
    let mut state = state_memory::read(&lent.try_into().unwrap()).unwrap();
    assert_eq!(state.run(9, 33), Ok(Run { steps: 1, next: 0, verdict: Verdict::Finished }));
}

#[test]
fn a_position_that_can_always_step_is_taken_within_96_steps() {
    // 32 records that push and pop for ever.
    let mut lent = memory(&[0x01, 0, 0, 0, 1, 0x1A, 0, 0, 1, 0]);
    for r in 0..32 {
        put_record(&mut lent, r, Rec::default());
    }
    let mut state = state_memory::read(&lent.try_into().unwrap()).unwrap();
    let mut taken = [0; 32];
    let count = |step: Step| taken[step.position() as usize] += 1;
    state.run_watched(96, 0, count).unwrap();
    assert_eq!(taken, [3; 32]);
}
