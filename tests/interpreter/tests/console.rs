//! The console: its grammar, the answer to each command, and damaged memories.

mod common;

use common::*;
use interpreter::console::{Console, Event, LINE, serve};
use interpreter::ends::Item;
use interpreter::refusal::Refusal;
use interpreter::run::Verdict;

/// What the console answers to a script.
fn answers(script: &[u8]) -> Vec<u8> {
    let mut output = Vec::new();
    serve(script, &mut output).unwrap();
    output
}

/// Gives the console the lines that begin with `> ` and compares its answers with the lines between them.
fn session(lines: &str) {
    let mut console = Console::default();
    let mut expected = String::new();
    let mut given = String::new();
    for line in lines.lines() {
        if let Some(command) = line.strip_prefix("> ") {
            assert_eq!(given, expected, "before {command}");
            expected.clear();
            given = String::from_utf8(console.answer(command.as_bytes())).unwrap();
        } else {
            expected += line;
            expected += "\n";
        }
    }
    assert_eq!(given, expected);
}

fn hex(bytes: &[u8]) -> String {
    bytes.iter().map(|byte| format!("{byte:02x}")).collect()
}

#[test]
fn document_01s_run() {
    let image = hex(&image_of(&ONE_RUN));
    let code = hex(&ONE_RUN);
    session(&format!(
        "\
> dump
code -
R0 running 0 stack - env - slots -
end
> write {code}
write 0
{image}
> load {image}
load 0
> dump
code {code}
R0 running 0 stack - env - slots -
end
> free
free: 64 0
> E 0
E 0: 16
> R 1
R 1: 2
> R 0
R 0: 0
> free
free: 62 2
> run 3 1
run: 0 3 1 spent
> dump
code {code}
R0 running 15 stack - env - slots 0:0
R1 waiting 17 stack - env - slots 0:1
E0 partner 1 queue v4
E1 partner 0 queue w1
end
> R 1
R 1: 3
> E 1
E 1: 0
> E 1
E 1: 17
> R 1
R 1: 0
> dump
code {code}
R0 running 15 stack - env - slots 0:0
R1 running 20 stack - env 4 slots 0:1
E0 partner 1 queue -
E1 partner 0 queue -
end
> run 65535 0
run: 0 3 33 finished
> run 0 96
run: 25
> free
free: 64 0
> dump
code {code}
end
> run 10 50
run: 0 0 50 finished
"
    ));
}

#[test]
fn a_state_in_words() {
    let mut lent = memory(&[0x11, 0]);
    let stack = [i32::MAX, i32::MIN];
    put_record(
        &mut lent,
        3,
        Rec { place: 65_535, stack: &stack, environment: &[0, -1], slots: &[(7, 63), (0, 2)], ..Rec::default() },
    );
    put_record(&mut lent, 31, Rec { status: WAITING, slots: &[(0, 0)], ..Rec::default() });
    put_end(&mut lent, 0, 1, &[handle(255), wait(31)]);
    put_end(&mut lent, 1, 0, &[value(-7), handle(0), common::split(5, 4)]);
    put_end(&mut lent, 2, 63, &[]);
    put_end(&mut lent, 63, 2, &[value(0)]);
    put_end(&mut lent, 4, 5, &[]);
    put_end(&mut lent, 5, 4, &[]);
    session(&format!(
        "\
> poke 0 {}
poke: ok
> dump
code 1100
R3 running 65535 stack 2147483647,-2147483648 env 0,-1 slots 0:2,7:63
R31 waiting 0 stack - env - slots 0:0
E0 partner 1 queue h255,w31
E1 partner 0 queue v-7,h0,s5:4
E2 partner 63 queue -
E4 partner 5 queue -
E5 partner 4 queue -
E63 partner 2 queue v0
end
> peek 8581 5
01ffff0202
",
        hex(&lent)
    ));
}

#[test]
fn a_damaged_memory() {
    session(
        "\
> poke 12670 00
poke: ok
> free
free: refused 1
> dump
dump: refused 1
> R 99
R 99: 1
> E 99
E 99: 1
> run 1 99
run: 1
> peek 12669 3
0000ff
> load
load 20
> free
free: refused 1
> poke 12670 FF
poke: ok
> free
free: 64 0
",
    );
}

#[test]
fn loading_and_writing() {
    let image = image_of(&[0x01, 0xAB, 0xCD, 0xEF, 0x01]);
    let mut wrong = image.clone();
    wrong[511] ^= 1;
    session(&format!(
        "\
> load
load 20
> load 00
load 20
> load {}
load 21
> load {}
load 20
> load {}
load 0
> R 0
R 0: 0
> load {}
load 0
> dump
code 01abcdef01
R0 running 0 stack - env - slots -
end
> write
write 26
> write {}
write 26
> dump
code 01abcdef01
R0 running 0 stack - env - slots -
end
",
        hex(&wrong),
        "00".repeat(19_997),
        hex(&image),
        hex(&image).to_uppercase(),
        "00".repeat(8_157),
    ));
}

#[test]
fn ranges() {
    session(
        "\
> peek 0 0

> peek 16902 0

> peek 16903 0
peek: out of range
> peek 16901 1
00
> peek 16901 2
peek: out of range
> peek 4294967295 4294967295
peek: out of range
> poke 16901 00
poke: ok
> poke 16901 0000
poke: out of range
> poke 16902 00
poke: out of range
> poke 4294967295 00
poke: out of range
> peek 0 4
00000000
> poke 1 aBCd
poke: ok
> peek 0 4
00abcd00
",
    );
}

#[test]
fn numbers() {
    session(
        "\
> R 4294967295
R 4294967295: 2
> R 4294967296
? R
> R 99999999999999999999999999
? R
> E 0000000000000000000063
E 63: 16
> E 00
E 0: 16
> run 65535 4294967295
run: 25
> run 65536 0
? run
> run 0 4294967296
? run
> R -0
? R
> R +1
? R
> R 0x1
? R
> R 1a
? R
> R 1,000
? R
> R \u{0661}
? R
",
    );
}

#[test]
fn not_understood() {
    for line in [
        "R",
        "R ",
        "R  1",
        "R 1 ",
        " R 1",
        "R 1 2",
        "R\t1",
        "R 1\r",
        "r 1",
        "E",
        "E x",
        "run",
        "run 1",
        "run 1 2 3",
        "free 1",
        "free ",
        "Free",
        "dump x",
        "dump ",
        "peek",
        "peek 1",
        "peek 1 2 3",
        "peek 1 -2",
        "poke",
        "poke 1",
        "poke 1 ",
        "poke 1 0",
        "poke 1 000",
        "poke 1 0g",
        "poke 1 00 00",
        "poke 00",
        "load ",
        "load  00",
        "load 0",
        "load 0x00",
        "load 00 00",
        "write 0",
        "write ",
        "write 1g",
        "help",
        "?",
        "? ",
        "load0",
        "\r",
        "\u{e9} x",
    ] {
        let first = line.split(' ').next().unwrap();
        assert_eq!(answers(line.as_bytes()), format!("? {first}\n").as_bytes(), "{line:?}");
    }
    let bytes = [0xFF, 0x00, b' ', b'x', b'\n'];
    assert_eq!(answers(&bytes), [b'?', b' ', 0xFF, 0x00, b'\n']);
}

#[test]
fn remarks() {
    for line in ["#", "##", "# ", "# a case", "#load 00", "#\tx\r", "# \u{e9}"] {
        assert_eq!(answers(line.as_bytes()), format!("{line}\n").as_bytes(), "{line:?}");
    }
    assert_eq!(answers(b"#\xFF\0\nfree"), b"#\xFF\0\nfree: 64 0\n");
    assert_eq!(answers(b" # x"), b"? \n");
    assert_eq!(answers(b"free #"), b"? free\n");
    let remark = |length: usize| format!("# {}", "x".repeat(length - 2));
    assert_eq!(answers(remark(LINE).as_bytes()), format!("{}\n", remark(LINE)).as_bytes());
    assert_eq!(answers(format!("{}\nfree", remark(LINE + 1)).as_bytes()), b"? #\nfree: 64 0\n");
    assert_eq!(answers("#".repeat(LINE + 1).as_bytes()), format!("? {}\n", "#".repeat(LINE)).as_bytes());
}

#[test]
fn lines() {
    assert_eq!(answers(b""), b"");
    assert_eq!(answers(b"\n"), b"? \n");
    assert_eq!(answers(b"free"), b"free: 64 0\n");
    assert_eq!(answers(b"free\n"), b"free: 64 0\n");
    assert_eq!(answers(b"free\n\nfree\n"), b"free: 64 0\n? \nfree: 64 0\n");
    assert_eq!(answers(b"free\r\nfree"), b"? free\r\nfree: 64 0\n");
}

#[test]
fn long_lines() {
    let padded = |length: usize| format!("R {}1", "0".repeat(length - 3));
    assert_eq!(answers(padded(LINE).as_bytes()), b"R 1: 2\n");
    assert_eq!(answers(padded(LINE + 1).as_bytes()), b"? R\n");
    let script = format!("{}\n{}\n{}\nfree\n", padded(LINE), padded(LINE + 1), padded(3 * LINE));
    assert_eq!(answers(script.as_bytes()), b"R 1: 2\n? R\n? R\nfree: 64 0\n");
    for length in [LINE - 1, LINE, LINE + 1, 2 * LINE + 5] {
        let kept = "x".repeat(length.min(LINE));
        assert_eq!(answers(format!("{}\nfree", "x".repeat(length)).as_bytes()), format!("? {kept}\nfree: 64 0\n").as_bytes());
        assert_eq!(Console::default().answer("x".repeat(length).as_bytes()), format!("? {kept}\n").as_bytes());
    }
}

#[test]
fn lines_at_random_are_answered() {
    let mut random = Random::new(5);
    let words = [
        "load", "write", "R", "E", "run", "free", "dump", "peek", "poke", "#", "0", "1", "31", "8158", "12670", "12742", "ff",
        "00", "05", "",
    ];
    let mut script = Vec::new();
    for _ in 0..3_000 {
        for _ in 0..random.below(5) {
            script.extend(words[random.below(words.len())].bytes());
            script.push(if random.below(30) == 0 { random.byte() } else { b' ' });
        }
        script.pop();
        script.push(b'\n');
    }
    let lines = script.iter().filter(|&&byte| byte == b'\n').count();
    let answered = answers(&script);
    assert!(answered.iter().filter(|&&byte| byte == b'\n').count() >= lines);
}

#[test]
fn what_commands_did_is_shown() {
    let mut console = Console::default();
    let mut events = Vec::new();
    let load = format!("load {}", hex(&image_of(&ONE_RUN)));
    for line in [&load, "R 0", "run 3 0", "E 1", "E 1", "run 9 9", "run 1 96", "peek 0 0", "help"] {
        console.answer_watched(line.as_bytes(), |event| events.push(event));
    }
    assert_eq!(console.memory().len(), SIZE);
    use Event::*;
    let expected = [
        Did("plug"),
        Did("cst"),
        Did("get"),
        Did("put"),
        Came(Verdict::Spent),
        Took(Item::Value(4)),
        Refused(Refusal::QueueEmpty),
        Did("halt"),
        Did("store"),
        Did("halt"),
        Took(Item::Close),
        Came(Verdict::Finished),
        Refused(Refusal::StartPosition),
    ];
    assert_eq!(events, expected);
}
