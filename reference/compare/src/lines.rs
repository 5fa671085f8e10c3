//! The program of the night box, which KORVAMMEL_CONTROLLER names, against what the second program prints for the same file and lines.

use compare::random::Random;
use compare::report::Tally;
use reference::night::night;
use reference::word::{write, Instruction};
use std::io::Write;
use std::process::{Command, Stdio};

/// The kinds of lines, each of which has to be met.
pub const KINDS: [&str; 16] = [
    "minutes one after the other",
    "any minutes",
    "marked minutes",
    "leading zeros",
    "minutes of no day",
    "20 digits",
    "empty lines",
    "blanks",
    "CR before the line end",
    "signs",
    "a mark twice",
    "an upper-case mark",
    "a mark alone or before digits",
    "other bytes",
    "long lines",
    "inputs without a last line end",
];

/// A line of a kind, after a minute.
fn line(random: &mut Random, kind: usize, last: u32) -> Vec<u8> {
    let any = random.below(1440);
    let text = match kind {
        0 => format!("{}", (last + 1) % 1440),
        1 => format!("{any}"),
        2 => format!("{any}f"),
        3 => format!("{}{any}{}", "0".repeat(1 + random.below(30) as usize), random.of(&["", "f"])),
        4 => format!("{}", random.of(&[1440u64, 1441, 9999, 65536, 4294967295, 4294967296, 4294967396, 18446744073709551615])),
        5 => format!("{}", random.of(&["99999999999999999999", "00000000000000000060", "18446744073709551676", "42949672960000000000"])),
        6 => String::new(),
        7 => random.of(&[" 60", "60 ", "6 0", "\t60", "60\t", " ", "60 f"]).to_string(),
        8 => random.of(&["60\r", "60f\r", "\r", "\r60"]).to_string(),
        9 => random.of(&["-1", "+1", "-0", "1-", "1.0", "1,0", "0x1"]).to_string(),
        10 => random.of(&["60ff", "60fff", "ff", "6f0f"]).to_string(),
        11 => random.of(&["60F", "60fF", "F", "60G", "60e"]).to_string(),
        12 => random.of(&["f", "f60", "6f0"]).to_string(),
        14 => random.of(&["7", "0", "f", "70"]).repeat(3000 + random.below(3000) as usize),
        _ => return (0..1 + random.below(6)).map(|_| random.of(&[0, 0x2F, 0x3A, 0x66, 0x7F, 0x80, 0xFF, 0x31])).collect(),
    };
    text.into_bytes()
}

/// Some lines, of which most are minutes, with or without the last line end.
fn input(random: &mut Random, tally: &mut Tally) -> Vec<u8> {
    let (mut input, mut last) = (Vec::new(), random.below(1440) as u32);
    for _ in 0..random.below(30) {
        let kind = if random.one_in(2) { 0 } else { random.below(15) as usize };
        tally.of_kind(kind);
        input.extend(line(random, kind, last));
        input.push(b'\n');
        last += (kind == 0) as u32;
    }
    if random.one_in(2) && !input.is_empty() {
        tally.of_kind(15);
        input.pop();
    }
    input
}

/// What the program prints: its input comes in pieces.
fn controller(file: &std::path::Path, input: &[u8], piece: usize) -> Vec<u8> {
    let program = std::env::var("KORVAMMEL_CONTROLLER").expect("KORVAMMEL_CONTROLLER names the program");
    let mut child = Command::new(program).arg(file).stdin(Stdio::piped()).stdout(Stdio::piped()).spawn().expect("the program starts");
    let (mut pipe, text) = (child.stdin.take().expect("a pipe"), input.to_vec());
    // it may end before it has read all, as it does where the file is no program
    let writer = std::thread::spawn(move || text.chunks(piece).all(|part| pipe.write_all(part).is_ok()));
    let output = child.wait_with_output().expect("the program ends");
    writer.join().expect("the writer ends");
    assert!(output.status.success() && output.stderr.is_empty(), "the program failed");
    output.stdout
}

/// A program whose relays tell what the program of the night box set up and left from line to line: a count that goes on in a register
/// and one in memory, and the enabled mask; it looks at a word inside the memory or just behind it, where it is trapped.
fn telling(random: &mut Random) -> Vec<u32> {
    let load = |register, offset| Instruction::M { opcode: 2, register, base: 0, offset };
    let store = |register, offset| Instruction::M { opcode: 34, register, base: 0, offset };
    let one_more = |d| Instruction::I { opcode: 4, flags: 0, d, a: d, immediate: 1 };
    let add = |d, a, b| Instruction::R { opcode: 4, flags: 0, d, a, b };
    let words = [
        Instruction::Movei { opcode: 2, flag: 0, d: 2, immediate: 6 },
        Instruction::C { opcode: 1, first: 3, second: 2 },
        one_more(1),
        load(4, 68),
        one_more(4),
        store(4, 68),
        add(4, 4, 1),
        add(4, 4, 3),
        store(4, 64),
        load(5, random.of(&[124, 128, 188])),
        Instruction::J { opcode: 0, register: 0, offset: -32 },
    ];
    words.into_iter().map(|i| write(i).expect("a word")).collect()
}

/// One file and one input through both.
pub fn printed(seed: u64, tally: &mut Tally) {
    let mut random = Random::new(seed ^ 0x4C69_6E65);
    let program = if random.one_in(3) { telling(&mut random) } else { random.program() };
    tally.show(&program);
    let mut bytes: Vec<u8> = program.iter().flat_map(|w| w.to_le_bytes()).collect();
    match random.below(12) {
        0 => bytes.truncate(bytes.len() - 1 - random.below(3) as usize),
        1 => bytes.resize(random.of(&[0, 65536, 65537, 65540]), 0),
        _ => (),
    }
    let file = std::env::temp_dir().join(format!("korvammel-lines-{}-{seed}", std::process::id()));
    std::fs::write(&file, &bytes).expect("a file");
    let input = input(&mut random, tally);
    let piece = random.of(&[1, 3, 100_000]);
    let found = controller(&file, &input, piece);
    std::fs::remove_file(&file).expect("the file");
    let expected = night(&bytes, &input);
    assert_eq!(expected, String::from_utf8_lossy(&found), "lines {:?}", String::from_utf8_lossy(&input));
    tally.met(if expected == "refused 1\n" { 1 } else { 0 });
}
