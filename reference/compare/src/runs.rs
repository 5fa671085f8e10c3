//! Starts and runs: whole states after each, on machines that must stay the same.

use crate::library::{self, ending_number, record_bytes, zero_bytes, Opening};
use crate::records::{any_record, damaged, stand_in, Verdicts};
use compare::floats::OPERATIONS;
use compare::machines::{budget, mask, Machine};
use compare::random::Random;
use compare::report::{same, Stored, Tally};
use reference::float::convert;
use reference::machine::{start, Record, ROOM_WORDS, ZERO};
use reference::run::{run, run_seen};
use reference::word::{write, Instruction};

/// Two machines that must stay the same: the second program's, and the library's.
pub struct Pair {
    pub machine: Machine,
    pub room2: Vec<u32>,
    pub memory2: Vec<u8>,
    pub record2: Opening,
}

impl Pair {
    pub fn new(machine: Machine, record2: Opening) -> Pair {
        Pair { room2: machine.room.clone(), memory2: machine.memory.clone(), machine, record2 }
    }

    pub fn started(random: &mut Random) -> Pair {
        let mask = mask(random);
        let mut machine = Machine::started(random, mask);
        let (mut room2, mut record2) = (vec![2; ROOM_WORDS], [3; 92]);
        assert_eq!(library::start(mask, &mut room2, &mut record2), 0, "start {mask}");
        same("started register word", &machine.room, &room2);
        same("started record byte", &record_bytes(&machine.record), &record2);
        machine.fill_registers(random);
        Pair::new(machine, record2)
    }

    pub fn same(&self) {
        same("register word", &self.machine.room, &self.room2);
        same("memory byte", &self.machine.memory, &self.memory2);
    }

    /// Makes the second program's machine ready for a program, and the library's like it.
    pub fn prepare(&mut self, random: &mut Random, words: usize) {
        self.machine.prepare(random, words);
        for t in 0..8 {
            self.room2[64 * t + 63] = self.machine.room[64 * t + 63];
        }
        self.record2 = record_bytes(&self.machine.record);
    }

    /// One run on both sides.
    fn run(&mut self, program: &[u32], budget: u32, tally: &mut Tally) {
        tally.show(program);
        let m = &mut self.machine;
        let (mut result, before, mut stored) = ([9; 4], m.record, Stored::default());
        let seen = |t, moved| tally.issued(t, moved, &mut stored);
        let (answer, made, looks) = run_seen(program, &mut m.room, &mut m.memory, &mut m.record, budget, seen);
        let number = library::run(program, &mut self.room2, &mut self.memory2, &mut self.record2, budget, &mut result);
        match answer {
            Ok(ending) => {
                assert_eq!((number, result), (0, [ending_number(ending), made, looks as u32, (looks >> 32) as u32]), "budget {budget}");
                tally.ran(made, looks, ending, &before, &m.record);
            }
            Err(n) => assert_eq!((number, result, looks), (n as u32, [0; 4], 0)),
        }
        same("record byte", &record_bytes(&m.record), &self.record2);
        self.same();
        tally.met(number);
    }

    /// A run from bytes that are no record, of which the second program gives the number: nothing changes. It runs a stand-in for them.
    fn refused(&mut self, program: &[u32], bytes: Opening, mut stand_in: Record, number: u32, tally: &mut Tally) {
        let (answer, ..) = run(program, &mut self.machine.room, &mut self.machine.memory, &mut stand_in, 1);
        let refusal = answer.expect_err("the second program ran from a record that it does not read") as u32;
        let expected = if refusal == 4 { number } else { refusal };
        let (mut found, mut result) = (bytes, [9; 4]);
        let answered = library::run(program, &mut self.room2, &mut self.memory2, &mut found, 1, &mut result);
        assert_eq!((answered, result), (expected, [0; 4]), "record {bytes:?}");
        self.same();
        same("refused record byte", &bytes, &found);
        tally.met(answered);
    }
}

/// A list of runs with changing programs and budgets, refused ones among them.
pub fn lists(seed: u64, tally: &mut Tally) {
    let mut random = Random::new(seed ^ 0x5275_6E73);
    let mut pair = Pair::started(&mut random);
    for _ in 0..1 + random.below(6) {
        let budget = budget(&mut random);
        let program = if random.one_in(20) { vec![0x7000_0000; random.of(&[0, 16385])] } else { random.program() };
        pair.prepare(&mut random, program.len());
        pair.run(&program, budget, tally);
        if random.one_in(20) {
            let mut bytes = pair.record2;
            bytes[random.of(&[0, 1, 4, 6, 83])] ^= 1;
            pair.refused(&program, bytes, ZERO, 10, tally);
        }
    }
}

/// Operands that are equal, next to each other or of other signs; and immediates next to some of them.
const EDGES: [u32; 16] = [
    0,
    1,
    2,
    254,
    255,
    256,
    0x4000_0000,
    0x7FFF_FFFE,
    0x7FFF_FFFF,
    0x8000_0000,
    0x8000_0001,
    0xFFFF_FEFF,
    0xFFFF_FF00,
    0xFFFF_FF01,
    0xFFFF_FFFE,
    0xFFFF_FFFF,
];
const IMMEDIATES: [i32; 8] = [-256, -255, -2, -1, 0, 1, 254, 255];

/// Compares and the forms of their words, R's four flags and then I's two.
pub const COMPARES: u64 = 10 * 6;

/// Seed by seed one compare in one form, on all pairs of these operands: in scalars, or in lanes each of which has another pair.
pub fn compares(seed: u64, tally: &mut Tally) {
    let (opcode, form) = (14 + (seed % 10) as u8, seed as usize / 10);
    let mut machine = Machine::started(&mut Random::new(seed), 1);
    for i in 0..16 {
        machine.room[16 + i] = EDGES[i];
        for j in 0..16 {
            machine.room[512 + 16 * (16 + i) + j] = EDGES[(i + j) % 16];
        }
    }
    let record = record_bytes(&machine.record);
    let mut pair = Pair::new(machine, record);
    for n in 0..256 {
        let (d, a, b) = (1, 16 + (n / 16) as u8, 16 + (n % 16) as u8);
        let instruction = match form {
            0..=3 => Instruction::R { opcode, flags: [0b000, 0b011, 0b010, 0b001][form], d, a, b },
            _ => Instruction::I { opcode, flags: [0b00, 0b01][form - 4], d, a, immediate: IMMEDIATES[n % 8] },
        };
        let mask = if n % 3 == 0 { 0x5AC3 } else { 0xFFFF };
        for room in [&mut pair.machine.room, &mut pair.room2] {
            (room[59], room[63]) = (mask, 0);
        }
        pair.run(&[write(instruction).expect("a word")], 1, tally);
    }
}

/// Seed by seed one float operation in one form: on all pairs of sixteen operands in scalars, or of sixteen vectors of them in lanes.
/// Those of one lane are near each other, and some are near the scalars.
pub fn floats(seed: u64, tally: &mut Tally) {
    let mut random = Random::new(seed ^ 0x466C_6F61);
    let at = (seed % 12) as usize;
    let operation = &OPERATIONS[at];
    let flags = operation.forms[(seed / 12 % 4) as usize];
    let mut machine = Machine::started(&mut random, 1);
    let scalars = operation.operands(&mut random, &[]);
    machine.room[16..32].copy_from_slice(&scalars);
    for j in 0..16 {
        for (i, operand) in operation.operands(&mut random, &scalars).into_iter().enumerate() {
            machine.room[512 + 16 * (16 + i) + j] = operand;
        }
    }
    let record = record_bytes(&machine.record);
    let mut pair = Pair::new(machine, record);
    for n in 0..256 {
        let (a, b) = (16 + n / 16, if operation.opcode >= 48 { 0 } else { 16 + n % 16 });
        let word = write(Instruction::R { opcode: operation.opcode, flags, d: 1, a: a as u8, b: b as u8 }).expect("a word");
        let mask = if n % 3 == 0 { random.below(65536) as u32 } else { 0xFFFF };
        for room in [&mut pair.machine.room, &mut pair.room2] {
            (room[59], room[63]) = (mask, 0);
        }
        pair.run(&[word], 1, tally);
        let room = &pair.machine.room;
        let operand = |is_vector, i: usize, j| if is_vector { room[512 + 16 * i + j] } else { room[i] };
        for j in (0..16).filter(|j| if flags == 0 { *j == 0 } else { mask >> j & 1 == 1 }) {
            tally.floats.met(at, flags != 0, operand(flags & 2 != 0, a, j), operand(flags & 1 != 0, b, j));
        }
    }
}

/// 48 and 49 of 65,536 words, whose upper half is the seed, in lanes: half of the vector registers at a time, each into one of the others.
pub fn conversions(seed: u64, tally: &mut Tally) {
    let mut random = Random::new(1);
    let mut machine = Machine::started(&mut random, 1);
    let (mut record, mut result) = (record_bytes(&machine.record), [0; 4]);
    for opcode in [48, 49] {
        let program: Vec<u32> =
            (0..32).map(|i| write(Instruction::R { opcode, flags: 0b110, d: 32 + i, a: i, b: 0 }).expect("a word")).collect();
        for low in (0..0x1_0000).step_by(512) {
            let first = (seed as u32) << 16 | low;
            for n in 0..512 {
                machine.room[512 + n] = first + n as u32;
            }
            (machine.room[59], machine.room[63]) = (0xFFFF, 0);
            let number = library::run(&program, &mut machine.room, &mut machine.memory, &mut record, 32, &mut result);
            assert_eq!((number, result[1]), (0, 32), "a run of 48 or 49");
            for n in 0..512 {
                let word = first + n as u32;
                assert_eq!(convert(opcode, word), machine.room[1024 + n], "opcode {opcode} of {word:08X}");
            }
            tally.met(number);
        }
    }
}

/// A run and a start whose program, room, memory or record may not be to be taken.
pub fn refusals(seed: u64, verdicts: &Verdicts, tally: &mut Tally) {
    let mut random = Random::new(seed ^ 0x5265_6675);
    let words = random.of(&[0, 1, ROOM_WORDS - 1, ROOM_WORDS, ROOM_WORDS, ROOM_WORDS, ROOM_WORDS, ROOM_WORDS, ROOM_WORDS + 1]);
    let bytes = random.of(&[0, 32, 63, 64, 64, 64, 64, 64, 96, 65536, 65600]);
    let program = vec![0x7000_0000; random.of(&[0, 1, 1, 1, 1, 1, 16384, 16385])];
    let record = any_record(&mut random);
    let opening = damaged(&mut random, record_bytes(&record));
    let machine = Machine { room: vec![seed as u32; words], memory: vec![seed as u8; bytes], record };
    let mut pair = Pair::new(machine, opening);
    match verdicts.of(&opening) {
        Ok(record) => {
            pair.machine.record = record;
            pair.run(&program, random.below(20) as u32, tally);
        }
        Err(number) => pair.refused(&program, opening, stand_in(&record, &opening), number, tally),
    }
    let mask = random.of(&[0, 1, 255, 256, u32::MAX]);
    let mut record2 = [7; 92];
    let started = start(mask, &mut pair.machine.room);
    let number = library::start(mask, &mut pair.room2, &mut record2);
    let expected = match started {
        Ok(r) => (0, record_bytes(&r)),
        Err(n) => (n as u32, zero_bytes()),
    };
    assert_eq!((number, record2), expected, "start {mask}");
    pair.same();
    tally.met(number);
}
