//! Methods of known shapes, in words for the assembler, and codes that are no method.

use crate::protocols;
use crate::random::Random;

/// A code: most often of a method that communicates, else of a damaged one, else random instructions or bytes.
pub fn code(random: &mut Random) -> Vec<u8> {
    match random.below(10) {
        0 | 1 => {
            let mut code = sound_code(random);
            damage(random, &mut code);
            code
        }
        2 => random_code(random),
        3 if random.one_in(4) => (0..random.between(1, 600)).map(|_| random.byte() % 32).collect(),
        _ => sound_code(random),
    }
}

/// The code of a method that communicates.
pub fn sound_code(random: &mut Random) -> Vec<u8> {
    let text = match random.below(10) {
        0 => chain(random),
        1 => server(random),
        2 => crowd(random),
        3 => forwarders(random),
        4 => splits(random),
        _ => protocols::method(random),
    };
    assembler::code(&text).expect("the words are the assembler's")
}

/// Processes in a chain, which pass a number along it and back for ever, and add to it on the way.
fn chain(random: &mut Random) -> String {
    let processes = random.between(2, 31);
    let step = random.value();
    let mut text = String::from("plug 0, {} first, {} link1\n");
    // Process i holds in slot 0 the channel to the one before. Link i makes the channel to the one after.
    for i in 1..processes - 1 {
        text += &format!("link{i}: plug 1, {{0}} pass, {{}} next{i}\n");
        text += &format!("next{i}: run link{} 0 1\n", i + 1);
    }
    text += &format!("link{}: get 0\ncst {step}\nadd\nput 0\nrun link{} 0 0\n", processes - 1, processes - 1);
    text += "first: cst 0\nput 0\nagain: get 0\nput 0\nrun again 0 0\n";
    text + &format!("pass: get 0\ncst {step}\nadd\nput 1\nget 1\nput 0\nrun pass 0 0 1")
}

/// Servers that loop by run over handles, each with a client; a client makes the next one and closes their channel.
fn server(random: &mut Random) -> String {
    let clients = random.between(1, 4);
    let mut text = String::new();
    for i in 0..clients {
        let (link, close) = if i == 0 { ("{}", "") } else { ("{2}", "close 2\n") };
        text += &format!("start{i}: plug 0, {link} client{i}, {{}} serve\nclient{i}: {close}");
        if i + 1 < clients {
            text += &format!("plug 2, {{0}} ask{i}, {{}} start{}\nask{i}: close 2\n", i + 1);
        }
        text += &requests(random);
    }
    text += "serve: hcase 0 sum double keep stop\n";
    text += "sum: get 0\nget 0\nadd\nput 0\nrun serve 0 0\n";
    text += "double: get 0\ncst 2\nmul\nput 0\nrun serve 0 0\n";
    text += "keep: get 0\nrun kept 1 0\nkept: access 0\nput 0\nrun serve 0 0\n";
    text += "stop: halt 0";
    text
}

/// What a client asks, now and then with a handle that the server does not have.
fn requests(random: &mut Random) -> String {
    let mut text = String::new();
    for _ in 0..random.between(1, 6) {
        let (one, other) = (random.value(), random.value());
        text += &match random.below(12) {
            0..=3 => format!("hput 0 0\ncst {one}\nput 0\ncst {other}\nput 0\nget 0\nstore\n"),
            4..=6 => format!("hput 0 1\ncst {one}\nput 0\nget 0\nstore\n"),
            7..=10 => format!("hput 0 2\ncst {one}\nput 0\nget 0\nstore\n"),
            _ => format!("hput 0 {}\n", random.between(3, 6)),
        };
    }
    text + "hput 0 3\nhalt 0\n"
}

/// So many processes that no record may be free when a split meets its fork. The last one sends word back to the first, which then
/// splits; on the way every channel is closed, so that there are ends enough, but the processes stay.
fn crowd(random: &mut Random) -> String {
    let members = random.pick(&[27, 30, 30, 30, 31]);
    let mut text = String::from("plug 0, {} first, {} taker\ntaker: fork 0, 0 {} one, 1 {} two\none: halt 0\ntwo: halt 1\n");
    text += "first: plug 1, {0} hold, {} grow1\nhold: get 1\nstore\nclose 1\nsplit 0 0 2\nrun stay 0 0 2\n";
    // Member i holds the channel to the one before in slot 1 if i is odd, else in slot 0, and makes the next in the other slot.
    for i in 1..members {
        let (before, after) = (i % 2, 1 - i % 2);
        text += &format!("grow{i}: plug {after}, {{{before}}} back{before}, {{}} grow{}\n", i + 1);
    }
    let before = members % 2;
    text += &format!("grow{members}: cst 1\nput {before}\nclose {before}\nrun stay 0\n");
    text += "back0: get 1\nput 0\nclose 0\nclose 1\nrun stay 0\nback1: get 0\nput 1\nclose 1\nclose 0\nrun stay 0\n";
    text + "stay: put 0"
}

/// A sender and a receiver, and between them processes that make their two partners partners of each other.
fn forwarders(random: &mut Random) -> String {
    let values = random.between(1, 9);
    let relays = random.between(1, 6);
    let mut text = String::from("plug 0, {} send, {} relay1\nsend: cst 1\n");
    for _ in 0..values {
        text += &format!("put 0\ncst {}\n", random.value());
    }
    text += "put 0\nget 0\nstore\nhalt 0\n";
    for i in 1..=relays {
        let (own, new) = ((i + 1) % 2, i % 2);
        // A relay that has put something itself must wait until that is read.
        let word = if random.one_in(3) { format!("cst 9\nput {own}\n") } else { String::new() };
        text += &format!("relay{i}: plug {new}, {{{own}}} join{i}, {{}} relay{}\njoin{i}: {word}same {own} {new}\n", i + 1);
    }
    let own = relays % 2;
    text += &format!("relay{}: ", relays + 1);
    for _ in 0..=values {
        text += &format!("get {own}\nstore\n");
    }
    text + &format!("cst 5\nput {own}\nhalt {own}")
}

/// Two processes that split, close and split again until no four ends are free, and fork with sets that are not theirs.
fn splits(random: &mut Random) -> String {
    let mut text = String::from("plug 0, {} one, {} other\n");
    for name in ["one", "other"] {
        text += &format!("{name}: ");
        for slot in 1..=random.between(1, 7) {
            text += &format!("split 0 0 {slot}\n");
        }
        for _ in 0..random.below(5) {
            let slot = random.between(1, 7);
            text += &format!("close {slot}\nsplit 0 0 {slot}\n");
        }
        text += "close 1\n";
    }
    text + "fork 0, 1 {} 0, 2 {} 0"
}

/// Instructions at random, with operands that are often right.
fn random_code(random: &mut Random) -> Vec<u8> {
    let length = random.between(10, 300);
    let mut code = vec![0x14, 0, 0, 0, 8, 0, random.below(length / 256 + 1) as u8, random.byte()];
    while code.len() < length {
        instruction(random, length, &mut code);
    }
    code
}

/// Appends an instruction at random; places are below `length`.
pub fn instruction(random: &mut Random, length: usize, code: &mut Vec<u8>) {
    let first =
        random.pick(&[1, 1, 2, 3, 4, 5, 6, 0x10, 0x10, 0x11, 0x11, 0x12, 0x13, 0x14, 0x14, 0x15, 0x16, 0x17, 0x18, 0x19, 0x1A]);
    code.push(first);
    let slot = |random: &mut Random| if random.one_in(30) { random.byte() } else { random.below(3) as u8 };
    let place = |random: &mut Random| (random.below(length) as u16).to_be_bytes();
    match first {
        0x01 => code.extend(random.value().to_be_bytes()),
        0x02 => code.push(random.below(4) as u8),
        0x10 | 0x11 | 0x15 | 0x16 => code.push(slot(random)),
        0x12 => code.extend([slot(random), slot(random), slot(random)]),
        0x13 => {
            code.push(slot(random));
            for _ in 0..2 {
                code.extend([slot(random), random.below(8) as u8]);
                code.extend(place(random));
            }
        }
        0x14 => {
            code.extend([slot(random), random.below(4) as u8]);
            code.extend(place(random));
            code.push(random.below(4) as u8);
            code.extend(place(random));
        }
        0x17 => code.extend([slot(random), slot(random)]),
        0x18 => code.extend([slot(random), random.below(4) as u8]),
        0x19 => {
            let places = random.pick(&[0, 1, 1, 2, 2, 3, 16, 17]);
            code.extend([slot(random), places]);
            (0..places).for_each(|_| code.extend(place(random)));
        }
        0x1A => {
            code.extend(place(random));
            let slots = random.below(3) as u8;
            code.extend([random.below(3) as u8, slots]);
            (0..slots).for_each(|_| code.push(slot(random)));
        }
        _ => {}
    }
}

/// Changes a code in one to three places.
fn damage(random: &mut Random, code: &mut Vec<u8>) {
    for _ in 0..random.between(1, 3) {
        let at = random.below(code.len());
        match random.below(8) {
            0 => code[at] = random.byte(),
            1 => code[at] = random.below(0x1C) as u8,
            2 => code[at] = code[at].wrapping_add(1),
            3 => code[at] = code[at].wrapping_sub(1),
            4 => code[at] ^= 1 << random.below(8),
            5 => code.insert(at, random.below(0x1C) as u8),
            6 if code.len() > 1 => _ = code.remove(at),
            _ => code.truncate(at.max(code.len() * 3 / 4).max(1)),
        }
    }
}
