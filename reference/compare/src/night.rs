//! The night box: whole years of minutes with both changes of the clock, and calls whose minutes, memory, program, registers or record may
//! not be to be taken.

use crate::library::{self, record_bytes, Opening};
use crate::records::{any_record, damaged, stand_in, Verdicts};
use compare::machines::{mask, Machine};
use compare::random::Random;
use compare::report::{same, Tally};
use reference::machine::{Status, ROOM_WORDS};
use reference::night::{minute, Kept, Report};
use reference::word::{write, Instruction};

/// What is counted of calls, each of which has to be met.
pub const KINDS: [&str; 7] = [
    "first readings",
    "the same minute again",
    "marked fall-backs",
    "readings that skip",
    "readings over midnight",
    "kept minutes out of the day",
    "minutes out of the day",
];

const DAY: u32 = 1440;

fn kinds(kept: Kept, now: u32, fall_back: u32) -> [bool; 7] {
    let last = kept.unwrap_or(now);
    [
        kept.is_none(),
        kept == Some(now),
        fall_back != 0,
        fall_back == 0 && last != now && (last + 1) % DAY != now,
        last > now && fall_back == 0,
        last >= DAY,
        now >= DAY,
    ]
}

/// Two boxes that must stay the same: the second program's, and the library's.
struct Pair {
    machine: Machine,
    kept: Kept,
    room2: Vec<u32>,
    memory2: Vec<u8>,
    record2: Opening,
    kept2: [u32; 2],
}

impl Pair {
    fn new(machine: Machine, record2: Opening, kept2: [u32; 2]) -> Pair {
        let kept = (kept2[0] != 0).then_some(kept2[1]);
        Pair { room2: machine.room.clone(), memory2: machine.memory.clone(), machine, kept, record2, kept2 }
    }

    /// One minute on both sides; `unread` is what the second program says of the record's bytes where it does not take them.
    fn minute(&mut self, program: &[u32], now: u32, fall_back: u32, unread: Option<u32>, tally: &mut Tally) {
        for (kind, is_met) in kinds(self.kept, now, fall_back).into_iter().enumerate() {
            if is_met {
                tally.of_kind(kind);
            }
        }
        let m = &mut self.machine;
        let (number, result, kept, record) =
            match minute(program, &mut m.room, &mut m.memory, &mut m.record, &mut self.kept, now, fall_back != 0) {
                Ok(Report { minute, skipped, relays }) => (0, [skipped, relays], [1, minute], record_bytes(&m.record)),
                // a record that is not to be taken is found last, whatever is wrong with it
                Err(4) => (unread.unwrap_or(4), [0; 2], self.kept2, self.record2),
                Err(number) => (number as u32, [0; 2], self.kept2, self.record2),
            };
        let mut found = [9; 2];
        let answered = library::night_minute(
            program,
            &mut self.room2,
            &mut self.memory2,
            &mut self.record2,
            &mut self.kept2,
            now,
            fall_back,
            &mut found,
        );
        assert_eq!((number, result, kept), (answered, found, self.kept2), "minute {now}, fall-back {fall_back}");
        same("record byte", &record, &self.record2);
        same("memory byte", &m.memory, &self.memory2);
        tally.met(answered);
    }

    fn same_registers(&self) {
        same("register word", &self.machine.room, &self.room2);
    }

    /// Every thread runs again from its first word, on both sides.
    fn restart(&mut self) {
        for t in 0..8 {
            (self.machine.room[64 * t + 63], self.room2[64 * t + 63]) = (0, 0);
            self.machine.record.threads[t] = Status::Running;
        }
        self.record2 = record_bytes(&self.machine.record);
    }
}

/// A program that puts the minute and the skipped minutes together into the word of relays.
fn sum() -> Vec<u32> {
    let load = |register, offset| Instruction::M { opcode: 2, register, base: 0, offset };
    let words = [
        load(1, 0),
        load(2, 4),
        Instruction::I { opcode: 11, flags: 0, d: 2, a: 2, immediate: 3 },
        Instruction::R { opcode: 4, flags: 0, d: 1, a: 1, b: 2 },
        Instruction::M { opcode: 34, register: 1, base: 0, offset: 64 },
        Instruction::C { opcode: 2, first: 0, second: 0 },
    ];
    words.into_iter().map(|i| write(i).expect("a word")).collect()
}

/// A year, minute by minute: an hour left out on a day of spring, and an hour twice on one of autumn, its first minute marked, or not
/// where a caretaker forgot. Each minute every thread runs the program above once more.
pub fn years(seed: u64, tally: &mut Tally) {
    let mut random = Random::new(seed ^ 0x5965_6172);
    let program = sum();
    let mut machine = Machine::started(&mut random, 255);
    machine.memory = vec![0; 128];
    let record = record_bytes(&machine.record);
    let mut pair = Pair::new(machine, record, [0, 0]);
    let (spring, autumn) = (60 + random.below(60), 270 + random.below(60));
    let hour = 60 * random.below(23) as u32;
    let forgotten = random.one_in(4);
    for day in 0..365 {
        for now in (0..DAY).filter(|now| day != spring || !(hour..hour + 60).contains(now)) {
            pair.restart();
            pair.minute(&program, now, 0, None, tally);
            if day == autumn && now == hour + 59 {
                for again in hour..hour + 60 {
                    let mark = again == hour && !forgotten;
                    pair.minute(&program, again, mark as u32, None, tally);
                }
            }
            // a board that asks once more, and one whose clock is broken
            if random.one_in(1000) {
                pair.minute(&program, now, random.of(&[0, 0, 2]), None, tally);
                pair.minute(&program, DAY + random.below(3) as u32, 0, None, tally);
            }
        }
        pair.same_registers();
    }
}

/// Minutes of any program, on machines and from records of any kind: small and odd memories, a room that is too short, a kept minute of
/// no day, a mark that is neither 0 nor 1.
pub fn calls(seed: u64, verdicts: &Verdicts, tally: &mut Tally) {
    let mut random = Random::new(seed ^ 0x4E69_6768);
    let which = mask(&mut random);
    let mut machine = Machine::started(&mut random, which);
    machine.fill_registers(&mut random);
    let odd = random.below(200) as usize;
    let bytes = random.of(&[0, 64, 127, 128, 128, 128, 128, 128, 129, 192, 192, 192, 65536, 65600, odd]);
    machine.memory.resize(bytes, seed as u8);
    if random.one_in(12) {
        machine.room.resize(random.of(&[0, ROOM_WORDS - 1, ROOM_WORDS + 1]), 3);
    }
    let mut record = machine.record;
    if random.one_in(3) {
        record = any_record(&mut random);
    }
    let opening = if random.one_in(4) { damaged(&mut random, record_bytes(&record)) } else { record_bytes(&record) };
    let verdict = verdicts.of(&opening);
    machine.record = verdict.unwrap_or(stand_in(&record, &opening));
    let kept = [random.of(&[0, 0, 1, 1, 1, 2, 256, u32::MAX]), any_minute(&mut random)];
    let mut pair = Pair::new(machine, opening, kept);
    for _ in 0..1 + random.below(4) {
        let program = if random.one_in(20) { vec![0x7000_0000; random.of(&[0, 16385])] } else { random.program() };
        tally.show(&program);
        let now = if random.one_in(5) { pair.kept2[1] } else { any_minute(&mut random) };
        pair.minute(&program, now, random.of(&[0, 0, 0, 1, 2, 0x8000_0000]), verdict.err(), tally);
        pair.same_registers();
    }
}

/// A minute: mostly of the day, often at its ends, at times none.
fn any_minute(random: &mut Random) -> u32 {
    let any = random.below(DAY as u64) as u32;
    match random.below(12) {
        0 => random.of(&[1440, 1441, 65536, 0x1_0000 + 100, u32::MAX]),
        1 => random.of(&[0, 1, 119, 180, 1438, 1439]),
        _ => any,
    }
}
