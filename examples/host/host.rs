//! A host in Rust: the same as `host.c`, over the safe functions of `amulingsad.rs`.
//!
//! usage: host IMAGE

mod amulingsad;

use std::error::Error;
use std::{env, fs};

use amulingsad::{Refused, STATE_SIZE, Verdict};

/// Where record 0 keeps its status, 1 while it runs (docs/STATE.md).
const STATUS: usize = 8_158;

/// Where record 0 keeps its environment: how many values, and the values, newest first, low byte first.
const ENVIRONMENT_COUNT: usize = 8_158 + 4;
const ENVIRONMENT: usize = 8_158 + 77;

fn environment_value(state: &[u8], place: usize) -> i32 {
    let at = ENVIRONMENT + 4 * place;
    i32::from_le_bytes([state[at], state[at + 1], state[at + 2], state[at + 3]])
}

/// Runs a step at a time and says which record or end was taken. The last line is that of the program trace.
fn run(state: &mut [u8]) -> Result<(), Refused> {
    let (mut made, mut next) = (0, 0);
    loop {
        let run = amulingsad::run(state, 1, next)?;
        next = u32::from(run.next);
        if run.steps == 1 {
            made += 1;
            match (next + 95) % 96 {
                record @ 0..32 => println!("{made} R{record}"),
                position => println!("{made} E{}", position - 32),
            }
            if next == 1 && state[ENVIRONMENT_COUNT] == 2 {
                println!("gas {}, result {}", environment_value(state, 1), environment_value(state, 0));
            }
        }
        let verdict = match run.verdict {
            Verdict::Spent => continue,
            Verdict::Finished => "finished",
            Verdict::Stuck => "stuck",
        };
        println!("{verdict} {made} {next}");
        return Ok(());
    }
}

/// Document 01's number of an answer, 0 for done.
fn number(answer: Result<(), Refused>) -> u8 {
    answer.map_or_else(Refused::number, |()| 0)
}

/// Calls that are refused: the number of each, and that the state memory is as it was.
fn refusals(state: &mut [u8], image: &mut [u8]) {
    let before = state.to_vec();
    image[100] ^= 1;
    println!("a damaged image: {}", number(amulingsad::load(state, image)));
    println!("record 40: {}", number(amulingsad::ask_record(state, 40)));
    println!("a state memory that is too short: {}", number(amulingsad::ask_end(&mut state[1..], 0)));
    println!("an output that is too short: {}", number(amulingsad::write(&[0x03], &mut [0; 511])));
    println!("the state memory is {}", if state == before { "as it was" } else { "changed" });
}

/// Asks of a state memory of another length: 24 comes before 1 (a status of 3 is none), 2 and 16, and every byte stays.
fn lengths() -> Result<(), Refused> {
    let (shorter, longer) = (STATE_SIZE - 1, STATE_SIZE + 1);
    let asks = [
        (shorter, 1, 'R', 0),
        (longer, 1, 'R', 0),
        (1, 1, 'R', 0),
        (shorter, 3, 'R', 0),
        (shorter, 1, 'R', 32),
        (longer, 1, 'E', 64),
        (longer, 3, 'E', 0),
    ];
    let mut image = [0; 512];
    amulingsad::write(&[0x03], &mut image)?;
    let mut lent = vec![0; longer];
    amulingsad::load(&mut lent[..STATE_SIZE], &image)?;
    for (length, status, kind, n) in asks {
        lent[STATUS] = status;
        let before = lent.clone();
        let memory = &mut lent[..length];
        let answer = if kind == 'R' { amulingsad::ask_record(memory, n) } else { amulingsad::ask_end(memory, n) };
        let kept = if lent == before { "as it was" } else { "changed" };
        println!("{length} bytes, status {status}, {kind} {n}: {}, {kept}", number(answer));
    }
    Ok(())
}

/// A number that nearly any change of a byte changes.
fn digest(bytes: &[u8]) -> u32 {
    bytes.iter().fold(1, |sum, &byte| (sum * 31 + u32::from(byte)) % 65_521)
}

/// Writes at the borders of a code's length and of the room: 26 comes before 27, and what is past the room or the blocks stays.
fn writes() {
    let code: Vec<u8> = (0..8_157).map(|i| (i % 251 + 1) as u8).collect();
    let borders = [
        (0, [8_704, 0].as_slice()),
        (1, &[8_704]),
        (506, &[511, 512, 8_704]),
        (507, &[1_023, 1_024, 8_704]),
        (8_156, &[8_191, 8_192, 8_704]),
        (8_157, &[8_704, 0]),
    ];
    for (length, rooms) in borders {
        for &room in rooms {
            let mut out = [170; 8_704];
            let answer = amulingsad::write(&code[..length], &mut out[..room]);
            println!("write {length} into {room}: {}, digest {}", number(answer), digest(&out));
        }
    }
}

fn main() -> Result<(), Box<dyn Error>> {
    let path = env::args_os().nth(1).ok_or("usage: host IMAGE")?;
    let mut image = fs::read(path)?;
    let mut state = vec![0; STATE_SIZE];
    amulingsad::load(&mut state, &image)?;
    run(&mut state)?;
    let free = amulingsad::free_ends(&state)?;
    println!("{} ends are free, the lowest is {}", free.count, free.lowest);
    refusals(&mut state, &mut image);
    lengths()?;
    writes();
    Ok(())
}
