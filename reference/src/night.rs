//! The night box, its lines and its program's text (document 02, T-14).

use crate::machine::{start, Record, ROOM_WORDS};
use crate::run::run;

/// The minutes of a day are 0 to 1439.
const DAY: u32 = 1440;

/// "minute, skipped and relays"
#[derive(Clone, Copy, PartialEq, Eq, Debug)]
pub struct Report {
    pub minute: u32,
    pub skipped: u32,
    pub relays: u32,
}

/// The minute "kept from the last call"; none before the first reading.
pub type Kept = Option<u32>;

/// "Skipped minutes lie strictly between two readings, forward round midnight; the first reading, the same minute again or a marked autumn
/// fall-back skips none."
fn skipped(kept: Kept, now: u32, fall_back: bool) -> u32 {
    match kept {
        Some(then) if then != now && !fall_back => {
            // the other minutes of the day in the clock's order, walked until this reading is met
            let behind = (then + 1..DAY).chain(0..then);
            behind.take_while(|m| *m != now).count() as u32
        }
        _ => 0,
    }
}

/// "20 memory under 128 bytes, first; 19 minute now or kept from the last call above 1439"
fn refusal(bytes: usize, kept: Kept, now: u32) -> Option<u8> {
    let mut readings = [Some(now), kept].into_iter().flatten();
    let in_order = [(20, bytes < 128), (19, readings.any(|m| m > 1439))];
    in_order.into_iter().find(|(_, applies)| *applies).map(|(number, _)| number)
}

/// The call of a local minute. It works on a copy of the memory, so that what the run refuses stays as it was: "then the run's 1, 2, 3, 4;
/// after any of them memory and kept minute stay".
pub fn minute(
    program: &[u32],
    room: &mut [u32],
    memory: &mut [u8],
    record: &mut Record,
    kept: &mut Kept,
    now: u32,
    fall_back: bool,
) -> Result<Report, u8> {
    if let Some(number) = refusal(memory.len(), *kept, now) {
        return Err(number);
    }
    // "it puts the minute of the day in memory bytes 0 to 3 and the minutes skipped since the last call in bytes 4 to 7"
    let skipped = skipped(*kept, now, fall_back);
    let mut copy = memory.to_vec();
    copy[..4].copy_from_slice(&now.to_le_bytes());
    copy[4..8].copy_from_slice(&skipped.to_le_bytes());
    // "runs 4,096 issues of the small board"
    run(program, room, &mut copy, record, 4096).0?;
    memory.copy_from_slice(&copy);
    *kept = Some(now);
    // "takes the low 16 bits of the word at byte 64 as relays": of a little endian word the first two bytes
    let relays = u16::from_le_bytes([memory[64], memory[65]]).into();
    Ok(Report { minute: now, skipped, relays })
}

/// "one minute a line, digits, an `f` right behind marking the fall-back": the minute and whether it is marked; none for "a line that is no
/// such number". The digits are looked up among the day's minutes as they are written, so that no length of theirs overflows.
fn reading(line: &[u8]) -> Option<(u32, bool)> {
    let (mut digits, marked) = match line {
        [digits @ .., b'f'] => (digits, true),
        _ => (line, false),
    };
    // a zero says nothing where another digit follows
    while digits.len() > 1 && digits[0] == b'0' {
        digits = &digits[1..];
    }
    let now = (0..DAY).find(|m| m.to_string().as_bytes() == digits)?;
    Some((now, marked))
}

/// What the program of a file prints for its standard input: "for each line minute, skipped and relays in decimal, a space apart, or
/// `refused` and the number; a file with part words or number 1 prints only `refused 1`".
pub fn night(file: &[u8], input: &[u8]) -> String {
    if file.len() % 4 != 0 || !(1..=16_384).contains(&(file.len() / 4)) {
        return "refused 1\n".to_string();
    }
    // "starts a named file's little endian words, mask 255, memory 128 zeros"
    let program: Vec<u32> = file.chunks(4).map(|b| u32::from_le_bytes([b[0], b[1], b[2], b[3]])).collect();
    let (mut room, mut memory, mut kept) = ([0; ROOM_WORDS], [0; 128], None);
    let mut record = start(255, &mut room).expect("room and mask are allowed");
    let mut text = String::new();
    for line in input.split_inclusive(|b| *b == b'\n') {
        let answer = match reading(line.strip_suffix(b"\n").unwrap_or(line)) {
            Some((now, marked)) => minute(&program, &mut room, &mut memory, &mut record, &mut kept, now, marked),
            None => Err(19),
        };
        text += &match answer {
            Ok(report) => format!("{} {} {}\n", report.minute, report.skipped, report.relays),
            Err(number) => format!("refused {number}\n"),
        };
    }
    text
}

#[cfg(test)]
mod tests {
    use super::*;
    use crate::machine::Status;

    /// `jmp` to itself, the paper's 0x70000000.
    const WAIT: u32 = 0x7000_0000;
    const END: u32 = 0x7A00_0000;

    /// A machine, its memory and what is kept.
    #[derive(Clone, PartialEq, Debug)]
    struct Night {
        room: Vec<u32>,
        memory: Vec<u8>,
        record: Record,
        kept: Kept,
    }

    impl Night {
        fn new(mask: u32) -> Night {
            let mut room = vec![0; ROOM_WORDS];
            let record = start(mask, &mut room).unwrap();
            Night { room, memory: vec![0; 128], record, kept: None }
        }

        fn call(&mut self, program: &[u32], now: u32, fall_back: bool) -> Result<Report, u8> {
            minute(program, &mut self.room, &mut self.memory, &mut self.record, &mut self.kept, now, fall_back)
        }
    }

    /// A program's bytes.
    fn file(words: &[u32]) -> Vec<u8> {
        words.iter().flat_map(|w| w.to_le_bytes()).collect()
    }

    /// "In spring 119 then 180 skips 60."
    #[test]
    fn between_readings() {
        let plain = |then, now| skipped(Some(then), now, false);
        assert_eq!(plain(119, 180), 60);
        assert_eq!((plain(1439, 0), plain(1438, 0), plain(1439, 1), plain(0, 1439)), (0, 1, 1, 1438));
        assert_eq!((plain(10, 11), plain(10, 12), plain(5, 4)), (0, 1, 1438));
        for now in 0..DAY {
            // "the first reading, the same minute again or a marked autumn fall-back skips none"
            assert_eq!((skipped(None, now, false), plain(now, now), skipped(Some(179), now, true)), (0, 0, 0));
            // what lies strictly between two readings on either side is the day without the two
            assert!(now == 700 || plain(700, now) + plain(now, 700) == 1438);
        }
    }

    /// The autumn hour, 02:00 to 02:59, comes twice; without the mark its second start is nearly a day away.
    #[test]
    fn fall_back() {
        let mut night = Night::new(255);
        let mut skips = |now, marked| night.call(&[WAIT], now, marked).unwrap().skipped;
        assert_eq!((skips(178, false), skips(179, false), skips(120, true), skips(121, false)), (0, 0, 0, 0));
        assert_eq!((skips(179, false), skips(120, false)), (57, 1380));
    }

    /// "in memory bytes 0 to 3 .. in bytes 4 to 7", little endian, and no other byte
    #[test]
    fn bytes_put() {
        let mut night = Night::new(255);
        night.memory.fill(0xA5);
        night.kept = Some(1);
        assert_eq!(night.call(&[WAIT], 0x0302, false), Ok(Report { minute: 770, skipped: 768, relays: 0xA5A5 }));
        assert_eq!(night.memory[..8], [2, 3, 0, 0, 0, 3, 0, 0]);
        assert!(night.memory.len() == 128 && night.memory[8..].iter().all(|b| *b == 0xA5));
        assert_eq!(night.kept, Some(770));
    }

    /// "takes the low 16 bits of the word at byte 64 as relays", as the run left it
    #[test]
    fn relays() {
        let mut night = Night::new(1);
        night.memory[63..69].copy_from_slice(&[1, 0x34, 0x92, 0x78, 0x56, 1]);
        assert_eq!(night.call(&[WAIT], 0, false).unwrap().relays, 0x9234);
        // load32 s1,(s0), store32 s1,64(s0), jmp back to the first: the minute comes out in the same call
        let mut night = Night::new(255);
        let echo = [0x8204_0000, 0xA204_0200, 0x7003_FFF8];
        for now in [1, 257, 1439] {
            assert_eq!(night.call(&echo, now, false).unwrap().relays, now);
        }
    }

    /// "If all 4,096 are made, every thread running before each of them gets at least 512."
    #[test]
    fn turns() {
        let mut night = Night::new(255);
        night.call(&[WAIT], 0, false).unwrap();
        assert_eq!(night.record.turns, [512; 8]);
        let mut night = Night::new(7);
        night.call(&[WAIT], 0, false).unwrap();
        assert_eq!(night.record.turns, [1366, 1365, 1365, 0, 0, 0, 0, 0]);
    }

    /// A box whose threads have ended still takes its minutes and keeps its relays.
    #[test]
    fn stopped() {
        let mut night = Night::new(255);
        night.memory[64] = 9;
        assert_eq!(night.call(&[END], 119, false), Ok(Report { minute: 119, skipped: 0, relays: 9 }));
        assert!(night.record.threads.iter().all(|s| *s == Status::Ended));
        assert_eq!(night.call(&[END], 180, false), Ok(Report { minute: 180, skipped: 60, relays: 9 }));
        assert_eq!((night.record.turns, night.kept), ([1; 8], Some(180)));
    }

    /// "Refusals: 20 .. first; 19 ..; then the run's 1, 2, 3, 4; after any of them memory and kept minute stay": all faults at once, then
    /// one mended after the other.
    #[test]
    fn order() {
        let mut night = Night { room: vec![7; 8703], memory: vec![0xA5; 127], ..Night::new(255) };
        (night.record.last, night.kept) = (8, Some(1440));
        let refused = |night: &Night, program: &[u32], now, number| {
            for marked in [false, true] {
                let mut after = night.clone();
                assert_eq!(after.call(program, now, marked), Err(number));
                assert_eq!(after, *night);
            }
        };
        refused(&night, &[], 1440, 20);
        night.memory = vec![0xA5; 64];
        refused(&night, &[], 1440, 20);
        night.memory = vec![0xA5; 129];
        refused(&night, &[], 1440, 19);
        refused(&night, &[], 1439, 19);
        night.kept = Some(1439);
        refused(&night, &[], 1440, 19);
        refused(&night, &[], u32::MAX, 19);
        refused(&night, &[], 1439, 1);
        refused(&night, &[WAIT; 16_385], 1439, 1);
        refused(&night, &[WAIT], 1439, 2);
        night.room.push(7);
        refused(&night, &[WAIT], 1439, 3);
        night.memory.truncate(128);
        refused(&night, &[WAIT], 1439, 4);
        night.record.last = 7;
        assert_eq!(night.call(&[WAIT], 1439, false), Ok(Report { minute: 1439, skipped: 0, relays: 0xA5A5 }));
    }

    /// "digits, an `f` right behind marking the fall-back"
    #[test]
    fn lines() {
        for (line, minute) in [("0", 0), ("00", 0), ("7", 7), ("0007", 7), ("60", 60), ("1439", 1439), ("000000000000000000001439", 1439)] {
            assert_eq!(reading(line.as_bytes()), Some((minute, false)));
            assert_eq!(reading(format!("{line}f").as_bytes()), Some((minute, true)));
        }
        let no_minutes =
            ["", "f", "1440", "1440f", "14390", "4294967296", "18446744073709551616", "100000000000000000000000000000000000000000"];
        let no_numbers =
            ["5ff", "5F", "f5", "5f5", "5 f", " 5", "5 ", "5\r", "5f\r", "+5", "-5", "-0", "0x5", "5.0", "0 ", "0f0", "\t5", "5\0", "٣"];
        for line in no_minutes.into_iter().chain(no_numbers) {
            assert_eq!(reading(line.as_bytes()), None, "{line:?}");
        }
        assert_eq!(reading(&[b'5', 0xFF]), None);
    }

    /// The program: after a refused line the next counts from the last good one, and a last line needs no LF.
    #[test]
    fn printed() {
        // load32 s1,4(s0), store32 s1,64(s0), jmp back to the first: relays show what was skipped
        let echo = file(&[0x8204_0020, 0xA204_0200, 0x7003_FFF8]);
        let input = b"119\n180\n\n1440\n5 \n0182\n182\n120f\n1439\n0";
        let text = "119 0 0\n180 60 60\nrefused 19\nrefused 19\nrefused 19\n182 1 1\n182 0 0\n120 0 0\n1439 1318 1318\n0 0 0\n";
        assert_eq!(night(&echo, input), text);
        assert_eq!(
            (night(&echo, b"").as_str(), night(&echo, b"\n").as_str(), night(&echo, b"3\n").as_str()),
            ("", "refused 19\n", "3 0 0\n")
        );
    }

    /// "mask 255, memory 128 zeros", one machine for all lines
    #[test]
    fn started() {
        // readcr of 6 is the enabled mask: addi s2,s0,6, readcr s1,s2, store32 s1,64(s0), end
        let mask = file(&[0x4408_0030, 0x7904_2000, 0xA204_0200, END]);
        assert_eq!(night(&mask, b"0\n1\n"), "0 0 255\n1 0 255\n");
        // addi s2,s0,64, loadv v1,64(s2) traps past 128 bytes; else store32 s2,64(s0) shows
        let past = |offset: u32| file(&[0x4408_0200, 0x8804_2000 | offset << 3, 0xA208_0200, END]);
        assert_eq!((night(&past(0), b"0\n").as_str(), night(&past(64), b"0\n").as_str()), ("0 0 64\n", "0 0 0\n"));
        // 1 more in each call: addi s3,s3,1, store32 s3,64(s0) and 509 words that wait out the call, then a jmp to the first
        let mut count = vec![0x440C_3008, 0xA20C_0200];
        count.extend([0x4400_0000; 509]);
        count.push(0x7000_0000 | (-4 * 511i32) as u32 & 0x3FFFF);
        assert_eq!(night(&file(&count), b"0\n1\nx\n2\n"), "0 0 1\n1 0 2\nrefused 19\n2 0 3\n");
    }

    /// "a file with part words or number 1 prints only `refused 1`"
    #[test]
    fn no_program() {
        for bytes in [0, 1, 3, 5, 4 * 16_384 + 1, 4 * 16_385] {
            assert_eq!(night(&vec![0; bytes], b"0\nx\n"), "refused 1\n");
        }
        assert_eq!(night(&vec![0; 4 * 16_384], b"0\n"), "0 0 0\n");
    }
}
