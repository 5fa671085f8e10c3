//! Programs as text assembled: sources made by seed, valid, damaged by one byte and hostile, and the second program's boundaries.

use crate::library;
use compare::random::Random;
use compare::report::{same, Tally};
use reference::assembler::{assemble, Names, Why};
use reference::sources::Case;

/// How a source is made, and then what it becomes: each has to be met.
pub const KINDS: [&str; 21] = [
    "valid",
    "a byte damaged",
    "tokens in any order",
    "any bytes",
    "deep",
    "long",
    "many labels",
    "large numbers",
    "source too long",
    "line too long",
    "malformed",
    "label unknown",
    "label repeated",
    "257th label",
    "too deep",
    "too large",
    "no word",
    "no program",
    "buffer too short",
    "buffer exact",
    "buffer longer",
];

/// The first of the kinds that say what a source is refused with.
const REFUSALS: usize = 8;
const EXACT: usize = 19;

fn blanks(random: &mut Random) -> &'static str {
    random.of(&["", "", "", "", " ", "  ", "\t"])
}

fn label(random: &mut Random, labels: &[String]) -> String {
    if labels.is_empty() || random.one_in(60) {
        return random.of(&["nowhere", "a", "B", "abcdefghijklmnop"]).to_string();
    }
    labels[random.below(labels.len() as u64) as usize].clone()
}

fn number(random: &mut Random, most: u64) -> String {
    let n = random.below(most);
    match random.below(4) {
        0 => format!("0x{n:x}"),
        1 => format!("0x{n:X}"),
        _ => n.to_string(),
    }
}

/// A sum of numbers below `most`, and of labels where there are some.
fn sum(random: &mut Random, labels: &[String], most: u64, depth: u32) -> String {
    let mut text = random.of(&["", "", "", "-"]).to_string();
    let terms = random.of(&[1, 1, 1, 2, 3]);
    for k in 0..terms {
        if k > 0 {
            text += random.of(&["+", "-"]);
        }
        text += blanks(random);
        text += &match random.below(6) {
            0 if depth > 0 => format!("({}{})", sum(random, labels, most, depth - 1), blanks(random)),
            1 | 2 if !labels.is_empty() => label(random, labels),
            _ => number(random, most),
        };
        text += blanks(random);
    }
    text
}

fn register(random: &mut Random, letter: &str) -> String {
    let letter = if random.one_in(80) { random.of(&["s", "v"]) } else { letter };
    let any = random.below(64);
    let n = random.of(&[0, 1, 2, 59, 62, any, any]);
    format!("{letter}{n}")
}

/// An instruction with its operands, mostly one that has a word.
fn instruction(random: &mut Random, names: &[String], labels: &[String]) -> String {
    let name = names[random.below(names.len() as u64) as usize].as_str();
    let (x, y, z) = random.of(&[("s", "s", "s"), ("s", "s", "s"), ("v", "v", "v"), ("v", "v", "s"), ("s", "v", "v"), ("s", "v", "s")]);
    let (comma, after) = (format!("{},{}", blanks(random), blanks(random)), blanks(random));
    let deep = random.of(&[0, 1, 3, 8]);
    let operands = match name {
        "end" | "jret" => return name.to_string() + after,
        "jmp" | "jmpsr" => sum(random, labels, 40, deep),
        "beqz" | "bnez" => register(random, "s") + &comma + &sum(random, labels, 40, deep),
        "barrier" | "readcr" => register(random, "s") + &comma + &register(random, "s"),
        "movei" | "moveil" | "moveih" => {
            let most = random.of(&[16, 16, 32_768, 32_769, 65_536]);
            register(random, x) + &comma + &sum(random, &[], most, deep)
        }
        _ if name.starts_with("load") || name.starts_with("store") => {
            let letter = if name.ends_with('v') { "v" } else { "s" };
            let offset = if random.one_in(3) { String::new() } else { sum(random, &[], 64, deep) };
            register(random, letter) + &comma + &offset + blanks(random) + "(" + &register(random, "s") + ")"
        }
        "clz" | "ctz" | "move" | "sext8" | "sext16" | "i32tof32" | "f32toi32" => register(random, x) + &comma + &register(random, x),
        "mulhi" => register(random, x) + &comma + &register(random, y) + &comma + &register(random, z),
        _ if name.ends_with('i') => {
            let most = random.of(&[8, 8, 255, 300]);
            register(random, x) + &comma + &register(random, x) + &comma + &sum(random, &[], most, deep)
        }
        _ => register(random, x) + &comma + &register(random, y) + &comma + &register(random, z),
    };
    format!("{name} {}{operands}{after}", blanks(random))
}

fn some_label(n: u64) -> String {
    let letter = |k: u64| (b'a' + (k % 26) as u8) as char;
    [letter(n / 676), letter(n / 26), letter(n)].iter().collect()
}

/// Lines that are well formed, and mostly have their words; each may have a comment.
fn valid(random: &mut Random, names: &[String], most: u64) -> Vec<u8> {
    let labels: Vec<String> = (0..random.below(5)).map(some_label).collect();
    let (mut lines, mut left) = (Vec::new(), labels.clone());
    for _ in 0..random.below(most) {
        let line = match random.below(12) {
            0 => String::new(),
            1..=2 if !left.is_empty() => left.pop().unwrap_or_default() + blanks(random) + ":",
            3 if random.one_in(25) => label(random, &labels) + ":",
            _ => instruction(random, names, &labels),
        };
        let comment = random.of(&["", "", "", ";", "; so it is: (\r\0"]);
        lines.push(format!("{}{line}{comment}", blanks(random)));
    }
    lines.extend(left.into_iter().map(|l| l + ":"));
    (lines.join("\n") + random.of(&["", "\n"])).into_bytes()
}

const TOKENS: [&str; 28] = [
    "add",
    "jmp",
    "end",
    "load32",
    "movei",
    "addi",
    "s1",
    "v2",
    "s63",
    "s64",
    "s01",
    ",",
    ",",
    "(",
    ")",
    "+",
    "-",
    ":",
    ";",
    "0x1F",
    "0X1F",
    "12",
    "2147483648",
    "2147483649",
    " ",
    "\t",
    "\n",
    "\r",
];

fn soup(random: &mut Random) -> Vec<u8> {
    (0..random.below(40)).map(|_| random.of(&TOKENS).to_string() + blanks(random)).collect::<String>().into_bytes()
}

/// Parentheses about as deep as is allowed, one of them lost at times.
fn deep(random: &mut Random) -> Vec<u8> {
    let (open, lost) = (random.of(&[7, 8, 9, 10, 50]), random.of(&[0, 0, 0, 1]));
    let inside = "(".repeat(open) + random.of(&["1", "-1", "x", ""]) + &")".repeat(open - lost);
    let line = random.of(&["jmp @", "load32 s1,@(s2)", "addi s1,s1,1+@-1", "load32 s1,(@)"]).replace('@', &inside);
    format!("x:\n{line}\n").into_bytes()
}

fn long(random: &mut Random, names: &[String]) -> Vec<u8> {
    let mut source = match random.below(3) {
        0 => "end\n".repeat(random.of(&[16_383, 16_384, 16_385])).into_bytes(),
        1 => vec![random.of(b"(;\n9a: "); random.of(&[120, 121, 65_536, 65_537])],
        _ => format!("{}end", " ".repeat(random.of(&[116, 117, 118]))).into_bytes(),
    };
    if random.one_in(2) {
        let at = random.below(source.len() as u64) as usize;
        source[at] = random.of(b"(;\n9a: ");
    }
    if random.one_in(4) {
        source.extend(valid(random, names, 4));
    }
    source
}

fn many_labels(random: &mut Random) -> Vec<u8> {
    let count = random.of(&[255, 256, 257, 2_000, 13_000]);
    let mut lines: Vec<String> = (0..count).map(|n| some_label(n) + ":").collect();
    for _ in 0..random.below(4) {
        let line = random.of(&["jmp @", "@:", "end", "beqz s1,@+4"]).replace('@', &some_label(random.below(count + 2)));
        lines.insert(random.below(lines.len() as u64) as usize, line);
    }
    lines.join("\n").into_bytes()
}

/// Numbers and sums about as large as is allowed.
fn large(random: &mut Random) -> Vec<u8> {
    let numbers =
        ["2147483647", "2147483648", "2147483649", "0x80000000", "0x80000001", "1", "(-2147483648)", "(1-2147483648-1)", "4294967296"];
    let nines = "9".repeat(99);
    let mut text = random.of(&["jmp ", "jmp -", "addi s1,s1,-"]).to_string();
    for k in 0..1 + random.below(4) {
        if k > 0 {
            text += random.of(&["+", "-"]);
        }
        text += if random.one_in(30) { nines.as_str() } else { random.of(&numbers) };
    }
    text.into_bytes()
}

fn made(kind: usize, random: &mut Random, names: &[String]) -> Vec<u8> {
    match kind {
        0 => valid(random, names, 30),
        1 => {
            let mut source = valid(random, names, 12);
            if !source.is_empty() {
                let at = random.below(source.len() as u64) as usize;
                source[at] = if random.one_in(2) { random.word() as u8 } else { random.of(b" \t\n:;,()+-0xsv9aA") };
            }
            source
        }
        2 => soup(random),
        3 => (0..random.below(200)).map(|_| random.word() as u8).collect(),
        4 => deep(random),
        5 => long(random, names),
        6 => many_labels(random),
        _ => large(random),
    }
}

/// Both sides on one source and one buffer: the answer, and all of the buffer.
fn both(names: &Names, source: &[u8], room: usize, tally: &mut Tally) -> Result<Vec<u32>, (Why, u32)> {
    let before: Vec<u32> = (0..room as u32).map(|k| k ^ 0xDEAD_0000).collect();
    let (mut buffer, mut result) = (before.clone(), [77, 77]);
    let number = library::assemble(source, &mut buffer, &mut result);
    let expected = assemble(names, source, room);
    let text = String::from_utf8_lossy(&source[..source.len().min(400)]);
    match &expected {
        Ok(words) => {
            assert_eq!((number, result), (0, [words.len(), 0]), "{text}");
            same("words", words, &buffer[..words.len()]);
            same("behind the words", &before[words.len()..], &buffer[words.len()..]);
        }
        Err((why, line)) => {
            assert_eq!((number, result), (why.number(), [0, *line as usize]), "{why:?} in {text}");
            same("buffer of a refused source", &before, &buffer);
        }
    }
    tally.met(number);
    expected
}

/// A source of a seed, in buffers of its length, shorter and longer.
pub fn assembling(seed: u64, names: &(Names, Vec<String>), tally: &mut Tally) {
    let mut random = Random::new(seed);
    let kind = random.of(&[0, 0, 0, 1, 1, 1, 2, 3, 4, 7]);
    let kind = if random.one_in(60) { random.of(&[5, 6]) } else { kind };
    tally.of_kind(kind);
    let source = made(kind, &mut random, &names.1);
    match both(&names.0, &source, 16_384, tally) {
        Ok(words) => {
            let (exact, short) = (words.len(), random.below(words.len() as u64) as usize);
            for room in [exact, exact - 1, short, exact + 1] {
                match both(&names.0, &source, room, tally) {
                    Ok(_) => tally.of_kind(EXACT + (room > exact) as usize),
                    Err((why, _)) => tally.of_kind(REFUSALS + why as usize),
                }
            }
        }
        Err((why, _)) => tally.of_kind(REFUSALS + why as usize),
    }
}

/// The second program's own list of boundaries.
pub fn boundary(case: &Case, names: &(Names, Vec<String>), tally: &mut Tally) {
    let found = both(&names.0, &case.source, case.room, tally).map_err(|(why, line)| (why.number(), line));
    assert_eq!(found, case.becomes, "{}", String::from_utf8_lossy(&case.source[..case.source.len().min(400)]));
}

/// The names, and as texts.
pub fn names() -> (Names, Vec<String>) {
    let names = Names::new();
    let texts = names.all().map(|n| String::from_utf8_lossy(n).into_owned()).collect();
    (names, texts)
}
