//! Intel HEX imported and exported: files made by seed, most of them damaged in a way that their kind names.

use crate::library;
use compare::random::Random;
use compare::report::{same, Tally};
use reference::hex;

/// The ways in which a file is made or damaged; a seed takes the next one.
pub const KINDS: [&str; 32] = [
    "good",
    "no byte of data",
    "truncated",
    "doubled",
    "lower case",
    "CR alone",
    "empty line",
    "length byte lies",
    "checksum off by one",
    "end record with data",
    "end record with an address",
    "04 with an address",
    "04 of one or three bytes",
    "data of no bytes",
    "past FFFF",
    "64 KiB exactly",
    "64 KiB and a byte or a word",
    "255 bytes a record",
    "overlap by one byte",
    "two lines exchanged",
    "04 that goes up or back",
    "another type",
    "no end record",
    "something behind the end",
    "last line without LF",
    "no colon",
    "a byte changed",
    "part words",
    "buffer of the words, or one less",
    "overlap and bad checksum",
    "odd digits",
    "gap in a word",
];

/// The lengths of programs, and of the buffers for their text.
pub const SIZES: [&str; 5] = ["buffer of the text's length", "one byte less", "longer", "no program", "the longest programs"];

/// A line before it is text: the bytes of a record, and what ends it.
#[derive(Clone)]
struct Line {
    bytes: Vec<u8>,
    end: &'static str,
}

impl Line {
    fn new(kind: u8, address: u16, data: &[u8], end: &'static str) -> Line {
        let mut bytes = vec![data.len() as u8, (address >> 8) as u8, address as u8, kind];
        bytes.extend(data);
        bytes.push(0);
        let mut line = Line { bytes, end };
        line.sign();
        line
    }

    /// Puts the right checksum.
    fn sign(&mut self) {
        let last = self.bytes.len() - 1;
        let sum: u32 = self.bytes[..last].iter().map(|b| *b as u32).sum();
        self.bytes[last] = (256 - sum % 256) as u8;
    }

    fn is_data(&self) -> bool {
        self.bytes[3] == 0
    }

    fn text(&self) -> Vec<u8> {
        let mut text = vec![b':'];
        for b in &self.bytes {
            text.extend([b >> 4, b & 15].map(|n| b"0123456789ABCDEF"[n as usize]));
        }
        text.extend(self.end.as_bytes());
        text
    }
}

fn end(random: &mut Random) -> &'static str {
    random.of(&["\n", "\n", "\r\n"])
}

fn bytes(random: &mut Random, n: usize) -> Vec<u8> {
    (0..n).map(|_| random.word() as u8).collect()
}

/// Good lines that begin at an address: data of some sizes, gaps, and types 04 that say what was so already. Whole words, mostly.
fn lines(random: &mut Random, from: usize, most: usize, kind: usize) -> Vec<Line> {
    let mut lines = Vec::new();
    let mut at = from;
    for _ in 0..1 + random.below(6) {
        if random.one_in(5) {
            lines.push(Line::new(4, 0, &[0, 0], end(random)));
        }
        at += if kind == 31 { random.of(&[1, 2, 3, 5, 6, 7]) } else { random.of(&[0, 0, 0, 4, 16, 100]) };
        let most = most.min(0x1_0000 - at);
        if most == 0 {
            break;
        }
        let sizes = if kind == 17 { [255; 4] } else { [16, 4, 1 + random.below(32) as usize, 1 + random.below(255) as usize] };
        let size = random.of(&sizes).min(most);
        lines.push(Line::new(0, at as u16, &bytes(random, size), end(random)));
        at += size;
    }
    if kind != 27 && at % 4 != 0 {
        let rest = bytes(random, 4 - at % 4);
        lines.push(Line::new(0, at as u16, &rest, end(random)));
    }
    lines
}

/// Lines whose data end with the longest program: all of its bytes, or few and a gap before them.
fn longest(random: &mut Random) -> Vec<Line> {
    let size = random.of(&[16, 16, 32, 255, 128]);
    let first = if random.one_in(12) { 0 } else { 0x1_0000 - 4 * (1 + random.below(200) as usize) };
    let starts: Vec<usize> = (first..0x1_0000).step_by(size).collect();
    starts.into_iter().map(|at| Line::new(0, at as u16, &bytes(random, size.min(0x1_0000 - at)), "\n")).collect()
}

/// One of the data lines.
fn data_line<'a>(random: &mut Random, lines: &'a mut [Line]) -> &'a mut Line {
    let count = lines.iter().filter(|line| line.is_data()).count() as u64;
    let nth = random.below(count) as usize;
    lines.iter_mut().filter(|line| line.is_data()).nth(nth).expect("a data line")
}

/// The address behind the last data line.
fn behind(lines: &[Line]) -> usize {
    let last = lines.iter().rfind(|line| line.is_data()).expect("a data line");
    usize::from(u16::from_be_bytes([last.bytes[1], last.bytes[2]])) + last.bytes[0] as usize
}

/// The lines of a file of a kind, as far as damage is done to records; the end record is the last.
fn records(kind: usize, random: &mut Random) -> Vec<Line> {
    let start = random.of(&[0, 0, 0, 4, 64, 1000, 60_000]);
    let mut lines = match kind {
        1 => Vec::new(),
        15 | 16 => longest(random),
        _ => lines(random, start, 255, kind),
    };
    let place = random.below(lines.len() as u64 + 1) as usize;
    let nl = end(random);
    match kind {
        7 => {
            let line = data_line(random, &mut lines);
            line.bytes[0] = line.bytes[0].wrapping_add(random.of(&[1, 255, 16, 128]));
            line.sign();
        }
        8 => {
            let line = data_line(random, &mut lines);
            let last = line.bytes.len() - 1;
            line.bytes[last] = line.bytes[last].wrapping_add(random.of(&[1, 255]));
        }
        11 => lines.insert(place, Line::new(4, random.of(&[1, 256, 0xFFFF]), &[0, 0], nl)),
        12 => {
            let data = random.of(&[&[0][..], &[0, 0, 0][..], &[][..]]);
            lines.insert(place, Line::new(4, 0, data, nl));
        }
        13 => {
            let address = random.word() as u16;
            lines.insert(place, Line::new(0, address, &[], nl));
        }
        14 => {
            let size = 1 + random.below(255) as usize;
            let past = random.below(size as u64) as usize + random.below(2) as usize;
            lines.push(Line::new(0, (0x1_0000 + past - size).min(0xFFFF) as u16, &bytes(random, size), nl));
        }
        16 => {
            let half = random.of(&[1, 1, 1, 2, 0x8000, 0xFFFF]);
            lines.push(Line::new(4, 0, &u16::to_be_bytes(half), nl));
            let size = random.of(&[1, 4]);
            lines.push(Line::new(0, 0, &bytes(random, size), nl));
        }
        18 | 29 => {
            let size = random.of(&[1, 3, 16]);
            let mut line = Line::new(0, (behind(&lines) - 1) as u16, &bytes(random, size), nl);
            if kind == 29 {
                line.bytes[4] ^= 1;
            }
            lines.push(line);
        }
        19 => {
            let (i, j) = (random.below(lines.len() as u64) as usize, random.below(lines.len() as u64) as usize);
            lines.swap(i, j);
        }
        20 => {
            let halves: [u16; 2] = random.of(&[[1, 0], [1, 1], [2, 1], [0xFF, 0x100], [0x100, 0xFF], [0xFFFF, 0xFFFE], [0xFFFF, 0]]);
            for half in halves {
                lines.push(Line::new(4, 0, &half.to_be_bytes(), nl));
                if !random.one_in(4) {
                    let address = random.of(&[0, 4, behind(&lines) as u16 & 0xFFF0, 0xFFF0]);
                    lines.push(Line::new(0, address, &bytes(random, 4), nl));
                    // a second record under the same upper half
                    if address < 0xFFF0 && random.one_in(2) {
                        lines.push(Line::new(0, address + 4, &bytes(random, 4), nl));
                    }
                }
            }
        }
        // of the form of a type 04, or of data
        21 if random.one_in(2) => lines.insert(place, Line::new(random.of(&[2, 3, 5, 6, 0x14]), 0, &[0, 0], nl)),
        21 => {
            let line = data_line(random, &mut lines);
            line.bytes[3] = random.of(&[2, 3, 5, 6, 16, 64, 255, 1, 4]);
            line.sign();
        }
        _ => {}
    }
    let nl = end(random);
    match kind {
        9 => lines.push(Line::new(1, 0, &bytes(random, 1), nl)),
        10 => lines.push(Line::new(1, random.of(&[1, 0x100, 0xFFFF]), &[], nl)),
        22 => {}
        _ => lines.push(Line::new(1, 0, &[], nl)),
    }
    lines
}

/// A place in a text that a byte there tells.
fn place(random: &mut Random, text: &[u8], is: impl Fn(u8) -> bool) -> Option<usize> {
    let places: Vec<usize> = (0..text.len()).filter(|i| is(text[*i])).collect();
    (!places.is_empty()).then(|| random.of(&places))
}

/// Digits replaced by others, at one of the places where they stand.
fn exchange(random: &mut Random, text: &mut Vec<u8>, old: &[u8], new: &[u8]) {
    let places: Vec<usize> = (0..text.len()).filter(|i| text[*i..].starts_with(old)).collect();
    if !places.is_empty() {
        let at = random.of(&places);
        text.splice(at..at + old.len(), new.iter().copied());
    }
}

/// A file of a kind, damaged as text too.
fn file(kind: usize, random: &mut Random) -> Vec<u8> {
    let mut text: Vec<u8> = records(kind, random).iter().flat_map(Line::text).collect();
    if kind == 1 && random.one_in(3) {
        text.clear();
    }
    let at = random.below(text.len() as u64 + 1) as usize;
    match kind {
        2 => text.truncate(at),
        3 => text.extend(text.clone()),
        4 => {
            let letter = place(random, &text, |c| c.is_ascii_uppercase()).expect("FF of the end record");
            text[letter] = text[letter].to_ascii_lowercase();
        }
        5 => match place(random, &text, |c| c == b'\n') {
            Some(i) if random.one_in(2) => text[i] = b'\r',
            Some(i) => text.insert(i, b'\r'),
            None => text.insert(at, b'\r'),
        },
        6 => {
            let i = place(random, &text, |c| c == b'\n').map_or(0, |i| i + 1);
            let i = random.of(&[0, i]);
            text.splice(i..i, random.of(&["\n", "\r\n", "\n\n"]).bytes());
        }
        23 => text.extend(random.of(&["x", "\n", "\r\n", ":00000001FF\n", "\0", ":0400000000000000FC\n", " \n"]).bytes()),
        24 => text.truncate(text.len() - 1),
        25 => {
            let i = place(random, &text, |c| c == b':').expect("a colon");
            text[i] = random.of(b";0 \n:S");
            if random.one_in(2) {
                text.remove(i);
            }
        }
        // bytes beside the digits, which a careless reader gives the value of what stood there
        26 if random.one_in(2) => {
            let (old, new) = random.of(&[(b":10".as_slice(), b":0G".as_slice()), (b"9", b"@"), (b"A", b":"), (b"0", b"/")]);
            exchange(random, &mut text, old, new);
        }
        26 if at < text.len() => text[at] = random.of(&[b'0', b'F', b'G', b'@', b'/', b':', b'a', b'\n', b'\r', 0, 255]),
        // a checksum of one digit, the zero before it left out
        30 if random.one_in(2) => {
            let zeros = (0..text.len() - 2).filter(|i| text[*i] == b'0' && b"\r\n".contains(&text[i + 2]));
            let zeros: Vec<usize> = zeros.collect();
            if !zeros.is_empty() {
                text.remove(random.of(&zeros));
            }
        }
        30 if random.one_in(2) && at < text.len() => drop(text.remove(at)),
        30 => text.insert(at, b'0'),
        _ => {}
    }
    text
}

/// A file imported on both sides: the number, the line, the words, and every place of the buffer.
pub fn importing(seed: u64, tally: &mut Tally) {
    let mut random = Random::new(seed ^ 0x4845_5820);
    let kind = (seed % KINDS.len() as u64) as usize;
    let text = file(kind, &mut random);
    let mut room = vec![0; 16_384];
    let count = hex::import(&text, &mut room).unwrap_or(0);
    let size = match random.below(4) {
        _ if kind == 28 => count - count.min(random.below(2) as usize),
        0 => count + random.below(5) as usize,
        1 => random.below(300) as usize,
        _ => 16_384,
    };
    let mut words: Vec<u32> = (0..size as u32).map(|i| i ^ 0xABCD_0000).collect();
    let mut words2 = words.clone();
    let mut result = [77, 88];
    let number = library::hex_import(&text, &mut words2, &mut result);
    let expected = match hex::import(&text, &mut words) {
        Ok(count) => (0, [count, 0]),
        Err(refusal) => (refusal.number as u32, [0, refusal.line]),
    };
    assert_eq!((number, result), expected, "{}: {:?}", KINDS[kind], String::from_utf8_lossy(&text[..text.len().min(2000)]));
    same("word", &words, &words2);
    tally.of_kind(kind);
    tally.met(number);
}

/// A program exported on both sides, and its text imported again by the library.
pub fn exporting(seed: u64, tally: &mut Tally) {
    let mut random = Random::new(seed ^ 0x4865_7845);
    let kind = match (seed % SIZES.len() as u64) as usize {
        4 if seed % 250 != 4 => 0,
        kind => kind,
    };
    let few = 1 + random.below(40) as usize;
    let words = match kind {
        3 => random.of(&[0, 16_385, 20_000]),
        4 => random.of(&[16_384, 16_384, 16_383, 16_381]),
        _ => few,
    };
    let program: Vec<u32> = (0..words).map(|_| random.word() as u32).collect();
    let length = 12 * words.div_ceil(4) + 8 * words + 12;
    let room = match kind {
        1 => length - 1 - random.of(&[0, 0, 1, 20]).min(length - 1),
        2 => length + random.below(100) as usize,
        3 => random.below(50) as usize,
        _ => length,
    };
    let (mut text, mut text2, mut found) = (vec![b'-'; room], vec![b'-'; room], 99);
    let expected = hex::export(&program, &mut text);
    let number = library::hex_export(&program, &mut text2, &mut found);
    match expected {
        Ok(length) => assert_eq!((number, found), (0, length), "{words} words into {room} bytes"),
        Err(refusal) => assert_eq!((number, found), (refusal as u32, 99), "{words} words into {room} bytes"),
    }
    same("byte", &text, &text2);
    if let Ok(length) = expected {
        let (mut again, mut result) = (vec![5; words + 3], [0, 0]);
        assert_eq!((library::hex_import(&text2[..length], &mut again, &mut result), result), (0, [words, 0]), "{words} words again");
        same("word again", &program, &again[..words]);
        assert_eq!(again[words..], [5; 3]);
    }
    tally.of_kind(kind);
    tally.met(number);
}
