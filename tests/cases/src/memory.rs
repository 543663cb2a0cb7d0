//! Words that build a state memory, by the tables of docs/STATE.md. However wrong a memory becomes, nothing is tested.

use crate::sheet::Word;

/// The bytes of the state memory.
pub const SIZE: usize = 16_902;

/// Where the code ends at most.
pub const CODE_END: usize = CODE + CODE_LIMIT;

const CODE: usize = 2;
const CODE_LIMIT: usize = 8_156;
const RECORDS: usize = 8_158;
const RECORD_SIZE: usize = 141;
const FREE: usize = 12_670;
const PARTNERS: usize = 12_678;
const COUNTS: usize = 12_742;
const QUEUES: usize = 12_806;

/// Where things stand in a record.
const PLACE: usize = 1;
const STACK_COUNT: usize = 3;
const ENVIRONMENT_COUNT: usize = 4;
const SLOTS: usize = 5;
const STACK: usize = 13;
const ENVIRONMENT: usize = 77;

/// The kinds of item.
const VALUE: u8 = 1;
const HANDLE: u8 = 2;
const SPLIT: u8 = 3;
const CLOSE: u8 = 4;
const WAIT: u8 = 5;

/// The start state with a code.
pub fn start(code: &[u8]) -> Vec<u8> {
    let mut memory = vec![0; SIZE];
    put_code(&mut memory, code);
    memory[RECORDS] = 1;
    memory[FREE..FREE + 8].fill(0xFF);
    memory
}

/// The code of a memory, its length from its first two bytes.
pub fn code(memory: &[u8]) -> &[u8] {
    let length = usize::from(u16::from_le_bytes([memory[0], memory[1]]));
    &memory[CODE..CODE + length.min(CODE_LIMIT)]
}

/// Does what the words say, one after the other.
pub fn build(memory: &mut [u8], words: &str) -> Result<(), String> {
    let (mut record, mut end) = (0, 0);
    for word in Word::all(words) {
        match word.name {
            "record" => [record] = word.numbers()?,
            "end" => [end] = word.numbers()?,
            "code" => put_code(memory, &word.bytes()?),
            _ => {
                let known = record_word(memory, word, record as usize)?
                    || queue_word(memory, word, end as usize)?
                    || memory_word(memory, word)?;
                if !known {
                    return Err(word.fault());
                }
            }
        }
    }
    Ok(())
}

fn put_code(memory: &mut [u8], code: &[u8]) {
    memory[..CODE_END].fill(0);
    memory[..CODE].copy_from_slice(&(code.len() as u16).to_le_bytes());
    memory[CODE..CODE + code.len()].copy_from_slice(code);
}

/// A word about a record: whether it is one.
fn record_word(memory: &mut [u8], word: Word<'_>, record: usize) -> Result<bool, String> {
    let cells = &mut memory[RECORDS + RECORD_SIZE * record..][..RECORD_SIZE];
    match word.name {
        "running" => cells[0] = 1,
        "waiting" => cells[0] = 2,
        "freed" => cells.fill(0),
        "place" => {
            let [place] = word.numbers()?;
            cells[PLACE..PLACE + 2].copy_from_slice(&(place as u16).to_le_bytes());
        }
        "slot" => {
            let [slot, end] = word.numbers()?;
            cells[SLOTS + slot as usize] = end as u8 + 1;
        }
        "empty" => {
            let [slot] = word.numbers()?;
            cells[SLOTS + slot as usize] = 0;
        }
        "stack" => append_values(cells, STACK_COUNT, STACK, word)?,
        "environment" => append_values(cells, ENVIRONMENT_COUNT, ENVIRONMENT, word)?,
        "no-stack" => {
            cells[STACK_COUNT] = 0;
            cells[STACK..ENVIRONMENT].fill(0);
        }
        "no-environment" => {
            cells[ENVIRONMENT_COUNT] = 0;
            cells[ENVIRONMENT..].fill(0);
        }
        _ => return Ok(false),
    }
    Ok(true)
}

/// The same value as often as is said goes behind the others on a stack, or in an environment.
fn append_values(cells: &mut [u8], count: usize, from: usize, word: Word<'_>) -> Result<(), String> {
    let (value, times) = word.times()?;
    for _ in 0..times {
        let at = from + 4 * usize::from(cells[count]);
        cells[at..at + 4].copy_from_slice(&(value as i32).to_le_bytes());
        cells[count] += 1;
    }
    Ok(())
}

/// A word about an end's queue: whether it is one.
fn queue_word(memory: &mut [u8], word: Word<'_>, end: usize) -> Result<bool, String> {
    match word.name {
        "value" => append_items(memory, end, VALUE, word)?,
        "handle" => append_items(memory, end, HANDLE, word)?,
        "wait" => append_items(memory, end, WAIT, word)?,
        "close" => append_item(memory, end, CLOSE, 0),
        "split" => {
            let [first, second] = word.numbers()?;
            append_item(memory, end, SPLIT, first as u32 + 256 * second as u32);
        }
        "no-queue" => clear_queue(memory, end),
        _ => return Ok(false),
    }
    Ok(true)
}

fn append_items(memory: &mut [u8], end: usize, kind: u8, word: Word<'_>) -> Result<(), String> {
    let (payload, times) = word.times()?;
    (0..times).for_each(|_| append_item(memory, end, kind, payload as u32));
    Ok(())
}

/// An item goes behind the others on an end's queue.
fn append_item(memory: &mut [u8], end: usize, kind: u8, payload: u32) {
    let at = QUEUES + 64 * end + 8 * usize::from(memory[COUNTS + end]);
    memory[at] = kind;
    memory[at + 1..at + 5].copy_from_slice(&payload.to_le_bytes());
    memory[COUNTS + end] += 1;
}

fn clear_queue(memory: &mut [u8], end: usize) {
    memory[COUNTS + end] = 0;
    memory[QUEUES + 64 * end..][..64].fill(0);
}

/// A word about several ends or records, or about a byte: whether it is one.
fn memory_word(memory: &mut [u8], word: Word<'_>) -> Result<bool, String> {
    match word.name {
        "pair" => {
            let [one, other] = word.numbers()?;
            pair(memory, one as usize, other as usize);
        }
        "free-pair" => {
            let [one, other] = word.numbers()?;
            free_end(memory, one as usize);
            free_end(memory, other as usize);
        }
        "closed-pairs" => {
            let [first, last] = word.numbers()?;
            (first / 2..last / 2).for_each(|k| close_pair(memory, 2 * k as usize));
        }
        "running-records" => {
            let [first, last] = word.numbers()?;
            (first..=last).for_each(|record| memory[RECORDS + RECORD_SIZE * record as usize] = 1);
        }
        "byte" => {
            let [at, new] = word.numbers()?;
            memory[at as usize] = new as u8;
        }
        _ => return Ok(false),
    }
    Ok(true)
}

/// Two ends are in use as partners; their queues stay.
fn pair(memory: &mut [u8], one: usize, other: usize) {
    for (end, partner) in [(one, other), (other, one)] {
        memory[FREE + end / 8] &= !(1 << (end % 8));
        memory[PARTNERS + end] = partner as u8;
    }
}

fn free_end(memory: &mut [u8], end: usize) {
    memory[FREE + end / 8] |= 1 << (end % 8);
    memory[PARTNERS + end] = 0;
    clear_queue(memory, end);
}

/// An end and the next are a pair that is closed and given up on both sides.
fn close_pair(memory: &mut [u8], end: usize) {
    pair(memory, end, end + 1);
    append_item(memory, end, CLOSE, 0);
    append_item(memory, end + 1, CLOSE, 0);
}
