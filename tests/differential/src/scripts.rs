//! Scripts of console commands.
//!
//! Every script begins with a load that is done, so that it does not depend on the one before it, and ends with a dump and peeks
//! that show the whole memory.

use crate::damages;
use crate::images;
use crate::memories::{self, SIZE};
use crate::methods;
use crate::random::Random;

/// Lines at the borders of the console's grammar.
const LINES: [&str; 54] = [
    "",
    " ",
    "#",
    "# a remark, with words  and spaces ",
    "#load 00",
    "##",
    " # x",
    "dump #",
    "R",
    "R ",
    " R 0",
    "R  0",
    "R 0 ",
    "R 0 0",
    "r 0",
    "R +0",
    "R -1",
    "R 0x1",
    "R 007",
    "R 31",
    "R 32",
    "R 4294967295",
    "R 4294967296",
    "E",
    "E 63",
    "E 64",
    "E 4294967295",
    "E 99999999999999999999",
    "run",
    "run 1",
    "run 0 0",
    "run 65535 95",
    "run 65536 0",
    "run 1 96",
    "run 00000001 000",
    "run 1 4294967295",
    "run 1 4294967296",
    "run -1 0",
    "free 1",
    "FREE",
    "dump ",
    "peek 16902 0",
    "peek 16902 1",
    "peek 16901 2",
    "peek 4294967295 4294967295",
    "peek 0 0",
    "poke 0",
    "poke 16902 00",
    "poke 0 0",
    "poke 0 0g",
    "write 3G",
    "load 0",
    "load zz",
    "help\t1",
];

/// A script, and images that go with it.
pub struct Script {
    /// The image of the first load.
    pub image: Vec<u8>,
    /// Another image, most often damaged, for the printing program.
    pub damaged: Vec<u8>,
    /// The commands, one a line.
    pub lines: Vec<String>,
}

impl Script {
    /// The script of this number; the same for the same seed.
    pub fn new(seed: u64, number: u64) -> Self {
        let mut random = Random::new(seed, number);
        let image = loop {
            if let Some(image) = assembler::image(&methods::code(&mut random)) {
                break image;
            }
        };
        let code = methods::code(&mut random);
        let damaged = images::damaged(&mut random, &code);
        let lines = vec![format!("load {}", hex(&image))];
        let mut script = Script { image, damaged, lines };
        match random.below(16) {
            0..=5 => script.asks_and_runs(&mut random),
            6 => script.records_first(&mut random),
            7..=10 => script.sound_memory(&mut random),
            11..=13 => script.damaged_memory(&mut random),
            14 => script.images(&mut random),
            _ => script.words(&mut random),
        }
        script.shows_all(&mut random);
        script
    }

    fn line(&mut self, line: impl Into<String>) {
        self.lines.push(line.into());
    }

    fn poke(&mut self, at: usize, bytes: &[u8]) {
        self.line(format!("poke {at} {}", hex(bytes)));
    }

    /// Runs of a few steps, asks in between, and now and then the rest of the run.
    fn asks_and_runs(&mut self, random: &mut Random) {
        for _ in 0..random.between(3, 30) {
            match random.below(9) {
                0..=2 => self.line(format!("run {} {}", random.below(12), random.below(96))),
                3 => self.line(format!("run {} 0", random.pick(&[0, 1, 50, 200, 2_000]))),
                4..=6 => self.ask(random),
                7 => (0..4).for_each(|record| self.line(format!("R {record}"))),
                _ => (0..6).for_each(|end| self.line(format!("E {end}"))),
            }
            if random.one_in(10) {
                self.look(random);
            }
        }
        if random.one_in(2) {
            self.line(format!("run {} {}", random.pick(&[500, 3_000, 3_000, 65_535]), random.below(97)));
            (0..4).for_each(|record| self.line(format!("R {record}")));
            (0..4).for_each(|end| self.line(format!("E {end}")));
        }
    }

    /// One ask or another call that changes no more than a step.
    fn ask(&mut self, random: &mut Random) {
        match random.below(10) {
            0..=4 => self.line(format!("R {}", if random.one_in(5) { random.below(34) } else { random.below(4) })),
            5..=8 => self.line(format!("E {}", if random.one_in(5) { random.below(66) } else { random.below(8) })),
            _ => self.line(format!("run 1 {}", random.below(98))),
        }
    }

    fn look(&mut self, random: &mut Random) {
        match random.below(3) {
            0 => self.line("free"),
            1 => self.line("dump"),
            _ => self.line(format!("peek {} {}", random.below(SIZE), random.below(300))),
        }
    }

    /// Asks only records for a while, so that queues fill and records run out; then the ends.
    fn records_first(&mut self, random: &mut Random) {
        for _ in 0..random.between(5, 60) {
            let last = random.pick(&[0, 0, 1, 1, 3, 31]);
            (0..=last).for_each(|record| self.line(format!("R {record}")));
        }
        for end in 0..random.between(4, 64) {
            self.line(format!("E {end}"));
        }
        self.line(format!("run {} {}", random.below(3_000), random.below(96)));
    }

    /// Asks everything of a memory that was built.
    fn sound_memory(&mut self, random: &mut Random) {
        let memory = memories::sound(random);
        self.poke(0, &memory);
        if random.one_in(2) {
            self.line("free");
        }
        let mut asks: Vec<String> = (0..32).map(|record| format!("R {record}")).collect();
        asks.extend((0..64).map(|end| format!("E {end}")));
        random.shuffle(&mut asks);
        asks.truncate(random.between(20, 96));
        self.lines.extend(asks);
        self.asks_and_runs(random);
    }

    /// Damages a memory again and again, asks, and mends it.
    fn damaged_memory(&mut self, random: &mut Random) {
        let memory = memories::sound(random);
        self.poke(0, &memory);
        for _ in 0..random.between(5, 25) {
            let changes = damages::damage(random, &memory);
            for (at, new) in &changes {
                self.poke(*at, new);
            }
            for _ in 0..random.between(1, 3) {
                match random.below(6) {
                    0 => self.line("free"),
                    1 => self.line("dump"),
                    2 => self.line(format!("run {} {}", random.pick(&[0, 0, 1, 5]), random.below(100))),
                    _ => self.ask(random),
                }
            }
            match random.below(3) {
                0 => self.poke(0, &memory),
                1 => changes.iter().for_each(|(at, new)| self.poke(*at, &memory[*at..at + new.len()])),
                _ => {}
            }
        }
    }

    /// Loads of damaged images and writes, at the borders too.
    fn images(&mut self, random: &mut Random) {
        for _ in 0..random.between(3, 10) {
            if random.one_in(3) {
                let code = images::border_code(random);
                self.line(format!("write {}", hex(&code)).trim_end());
            } else {
                let code = if random.one_in(3) { images::border_code(random) } else { methods::code(random) };
                let image = images::damaged(random, &code);
                self.line(format!("load {}", hex(&image)).trim_end());
            }
            if random.one_in(2) {
                self.line(format!("run {} 0", random.below(40)));
            }
        }
    }

    /// Lines that are nearly understood, and such as are just so.
    fn words(&mut self, random: &mut Random) {
        for _ in 0..random.between(5, 30) {
            match random.below(8) {
                0 => self.ask(random),
                1 => self.poke(SIZE - random.between(0, 2), &[0, 0]),
                2 if random.one_in(4) => self.long_line(random),
                2 if random.one_in(3) => self.line("x".repeat(random.between(39_998, 41_000))),
                3 => self.line(format!("write {}", hex(&[random.byte(), 0xAB]).to_uppercase())),
                4 => self.look(random),
                _ => self.line(random.pick(&LINES)),
            }
        }
    }

    /// An ask or a remark as long as a line may be, or a little shorter or longer.
    fn long_line(&mut self, random: &mut Random) {
        let length = random.pick(&[39_999, 40_000, 40_001, 40_002, 50_000]);
        let text = random.pick(&["R ", "# ", "#"]).to_string() + &"0".repeat(length);
        self.line(&text[..length]);
    }

    /// Shows the state in words and every byte of the memory.
    fn shows_all(&mut self, random: &mut Random) {
        self.line("dump");
        let cut = random.below(SIZE + 1);
        self.line(format!("peek 0 {cut}"));
        self.line(format!("peek {cut} {}", SIZE - cut));
    }
}

/// Bytes in hex.
fn hex(bytes: &[u8]) -> String {
    bytes.iter().flat_map(|byte| [byte >> 4, byte & 15]).filter_map(|digit| char::from_digit(digit.into(), 16)).collect()
}
