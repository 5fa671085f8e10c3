//! Issues and runs (document 01, "Choosing and counting issues" and "One issue"; document 02, T-08).

use crate::float;
use crate::machine::{memory_allowed, Record, Status, ROOM_WORDS};
use crate::word::{is_binary, is_compare, read, Instruction, Reading};

#[derive(Clone, Copy, PartialEq, Eq, Debug)]
pub enum Ending {
    Stopped,
    Stuck,
    Spent,
}

/// What an instruction leads to, if it does not trap.
enum Next {
    On,
    To(u32),
    Ended,
    Meets(u32, u32),
}

/// A vector that was loaded or stored: the place of its first byte, and the lanes that were on.
#[derive(Clone, Copy)]
pub struct Moved {
    pub at: usize,
    pub lanes: u16,
    pub is_store: bool,
}

/// One thread's view of the machine in an issue.
struct Issue<'a> {
    words: usize,
    room: &'a mut [u32],
    memory: &'a mut [u8],
    enabled: u8,
    /// The thread's turns before this issue.
    turns: u32,
    t: usize,
    pc: u32,
    moved: Option<Moved>,
}

/// An operand: "A scalar among vectors counts as sixteen equal lanes."
#[derive(Clone, Copy)]
enum Operand {
    Scalar(u32),
    Lanes([u32; 16]),
}

impl Operand {
    fn scalar(self) -> u32 {
        match self {
            Operand::Scalar(x) => x,
            Operand::Lanes(_) => unreachable!("no line has a vector here"),
        }
    }

    fn lane(self, j: usize) -> u32 {
        match self {
            Operand::Scalar(x) => x,
            Operand::Lanes(v) => v[j],
        }
    }
}

fn binary(opcode: u8, x: u32, y: u32) -> u32 {
    let shift = y & 31;
    match opcode {
        1 => x | y,
        2 => x & y,
        3 => x ^ y,
        4 => x.wrapping_add(y),
        5 => x.wrapping_sub(y),
        6 => x.wrapping_mul(y),
        7 => ((x as i32 as i64 * y as i32 as i64) >> 32) as u32,
        8 => ((x as u64 * y as u64) >> 32) as u32,
        9 => ((x as i32) >> shift) as u32,
        10 => x >> shift,
        11 => x << shift,
        _ => float::binary(opcode, x, y),
    }
}

fn unary(opcode: u8, x: u32) -> u32 {
    match opcode {
        12 => (0..32).take_while(|k| x >> (31 - k) & 1 == 0).count() as u32,
        13 => (0..32).take_while(|k| x >> k & 1 == 0).count() as u32,
        32 => x,
        43 => x as u8 as i8 as i32 as u32,
        44 => x as u16 as i16 as i32 as u32,
        _ => float::convert(opcode, x),
    }
}

fn compare(opcode: u8, x: u32, y: u32) -> bool {
    let (sx, sy) = (x as i32, y as i32);
    match opcode {
        14 => x == y,
        15 => x != y,
        16 => sx > sy,
        17 => sx >= sy,
        18 => sx < sy,
        19 => sx <= sy,
        20 => x > y,
        21 => x >= y,
        22 => x < y,
        23 => x <= y,
        _ => float::compare(opcode, x, y),
    }
}

impl Issue<'_> {
    fn s(&self, i: u8) -> u32 {
        self.room[64 * self.t + i as usize]
    }

    fn set_s(&mut self, i: u8, x: u32) {
        self.room[64 * self.t + i as usize] = x;
    }

    fn v(&self, i: u8) -> [u32; 16] {
        std::array::from_fn(|j| self.room[512 + 1024 * self.t + 16 * i as usize + j])
    }

    /// "a vector destination changes in lanes that are on"
    fn set_v(&mut self, i: u8, v: [u32; 16]) {
        let mask = self.s(59);
        for (j, x) in v.into_iter().enumerate() {
            if mask >> j & 1 == 1 {
                self.room[512 + 1024 * self.t + 16 * i as usize + j] = x;
            }
        }
    }

    fn operand(&self, is_vector: bool, i: u8) -> Operand {
        if is_vector {
            Operand::Lanes(self.v(i))
        } else {
            Operand::Scalar(self.s(i))
        }
    }

    fn operate(&mut self, opcode: u8, d_is_vector: bool, d: u8, a: Operand, b: Operand) {
        if is_compare(opcode) {
            let answer = match (a, b) {
                (Operand::Scalar(x), Operand::Scalar(y)) => compare(opcode, x, y) as u32,
                _ => (0..16).map(|j| (self.s(59) >> j & 1) * compare(opcode, a.lane(j), b.lane(j)) as u32 * (1 << j)).sum(),
            };
            self.set_s(d, answer);
        } else if opcode == 24 {
            self.set_v(d, std::array::from_fn(|j| a.lane((b.lane(j) % 16) as usize)));
        } else if opcode == 25 {
            self.set_s(d, a.lane((b.scalar() % 16) as usize));
        } else {
            let one = |x, y| if is_binary(opcode) { binary(opcode, x, y) } else { unary(opcode, x) };
            if d_is_vector {
                self.set_v(d, std::array::from_fn(|j| one(a.lane(j), b.lane(j))));
            } else {
                self.set_s(d, one(a.scalar(), b.scalar()));
            }
        }
    }

    fn move_immediate(&mut self, opcode: u8, is_vector: bool, d: u8, n: u32) {
        let moved = |old: u32| match opcode {
            0 => old & 0xFFFF_0000 | n,
            1 => old & 0x0000_FFFF | n << 16,
            _ => n,
        };
        if is_vector {
            self.set_v(d, self.v(d).map(moved));
        } else {
            self.set_s(d, moved(self.s(d)));
        }
    }

    /// "A taken target that is negative, not a multiple of 4, or at or past the program's end traps with 4."
    fn target(&self, address: i64) -> Result<u32, u8> {
        if address < 0 || address % 4 != 0 || address >= 4 * self.words as i64 {
            Err(4)
        } else {
            Ok(address as u32)
        }
    }

    fn jump(&mut self, opcode: u8, register: u8, offset: i32) -> Result<Next, u8> {
        let away = self.pc as i64 + offset as i64;
        match opcode {
            0 => Ok(Next::To(self.target(away)?)),
            1 => {
                let to = self.target(away)?;
                self.set_s(62, self.pc + 4);
                Ok(Next::To(to))
            }
            2 => Ok(Next::To(self.target(self.s(62) as i64)?)),
            _ => {
                let is_zero = self.s(register) == 0;
                if is_zero == (opcode == 5) {
                    Ok(Next::To(self.target(away)?))
                } else {
                    Ok(Next::On)
                }
            }
        }
    }

    fn control(&mut self, opcode: u8, first: u8, second: u8) -> Result<Next, u8> {
        match opcode {
            0 => Ok(Next::Meets(self.s(first), self.s(second))),
            1 => {
                let value = match self.s(second) {
                    0 | 1 => 0,
                    2 | 3 => self.t as u32,
                    6 => self.enabled as u32,
                    9 => self.pc,
                    14 => 8,
                    // document 02, T-05: "readcr 16 gives the value before its own issue"
                    16 => self.turns,
                    _ => return Err(6),
                };
                self.set_s(first, value);
                Ok(Next::On)
            }
            _ => Ok(Next::Ended),
        }
    }

    /// The place of `size` bytes: "Not a multiple of 2, 4 ..: reason 1. Then any byte outside memory: reason 2."
    /// Document 02, T-04: "A vector load or store now needs an address that is a multiple of 4, not 64. All 64 bytes are still range-checked".
    fn place(&self, base: u8, offset: i32, size: i64) -> Result<usize, u8> {
        let address = self.s(base) as i64 + offset as i64;
        let unit = if size == 64 { 4 } else { size };
        if address % unit != 0 {
            return Err(1);
        }
        if address < 0 || address + size > self.memory.len() as i64 {
            return Err(2);
        }
        Ok(address as usize)
    }

    fn bytes(&self, at: usize, size: usize) -> u32 {
        (0..size).map(|k| (self.memory[at + k] as u32) << (8 * k)).sum()
    }

    fn set_bytes(&mut self, at: usize, size: usize, x: u32) {
        for k in 0..size {
            self.memory[at + k] = (x >> (8 * k)) as u8;
        }
    }

    fn access(&mut self, opcode: u8, register: u8, base: u8, offset: i32) -> Result<(), u8> {
        let size = match opcode {
            0 | 4 | 32 => 1,
            1 | 5 | 33 => 2,
            2 | 34 => 4,
            _ => 64,
        };
        let at = self.place(base, offset, size as i64)?;
        if size == 64 {
            self.moved = Some(Moved { at, lanes: self.s(59) as u16, is_store: opcode == 40 });
        }
        match opcode {
            0 => self.set_s(register, self.bytes(at, 1) as u8 as i8 as i32 as u32),
            1 => self.set_s(register, self.bytes(at, 2) as u16 as i16 as i32 as u32),
            2 | 4 | 5 => self.set_s(register, self.bytes(at, size)),
            8 => self.set_v(register, std::array::from_fn(|j| self.bytes(at + 4 * j, 4))),
            40 => {
                let (v, mask) = (self.v(register), self.s(59));
                for (j, x) in v.into_iter().enumerate().filter(|(j, _)| mask >> j & 1 == 1) {
                    self.set_bytes(at + 4 * j, 4, x);
                }
            }
            _ => self.set_bytes(at, size, self.s(register)),
        }
        Ok(())
    }

    fn execute(&mut self, instruction: Instruction) -> Result<Next, u8> {
        match instruction {
            Instruction::R { opcode, flags, d, a, b } => {
                let x = self.operand(flags >> 1 & 1 == 1, a);
                let y = self.operand(flags & 1 == 1, b);
                self.operate(opcode, flags >> 2 & 1 == 1, d, x, y);
                Ok(Next::On)
            }
            Instruction::I { opcode, flags, d, a, immediate } => {
                let x = self.operand(flags & 1 == 1, a);
                self.operate(opcode, flags >> 1 & 1 == 1, d, x, Operand::Scalar(immediate as u32));
                Ok(Next::On)
            }
            Instruction::Movei { opcode, flag, d, immediate } => {
                self.move_immediate(opcode, flag == 1, d, immediate as u32);
                Ok(Next::On)
            }
            Instruction::J { opcode, register, offset } => self.jump(opcode, register, offset),
            Instruction::C { opcode, first, second } => self.control(opcode, first, second),
            Instruction::M { opcode, register, base, offset } => {
                self.access(opcode, register, base, offset)?;
                Ok(Next::On)
            }
        }
    }
}

/// One issue of thread t: the vector that it moved, if it did.
fn issue(program: &[u32], room: &mut [u32], memory: &mut [u8], record: &mut Record, t: usize) -> Option<Moved> {
    let pc = room[64 * t + 63];
    let mut moved = None;
    let next = if pc % 4 != 0 || (pc / 4) as usize >= program.len() {
        Err(4)
    } else {
        match read(program[(pc / 4) as usize]) {
            Reading::Undefined => Err(3),
            Reading::NotFitted => Err(6),
            Reading::Defined(instruction) => {
                let turns = record.turns[t];
                let mut view = Issue { words: program.len(), room, memory, enabled: record.enabled, turns, t, pc, moved };
                let next = view.execute(instruction);
                moved = view.moved;
                next
            }
        }
    };
    record.last = t as u8;
    record.turns[t] = record.turns[t].wrapping_add(1);
    match next {
        Err(reason) => record.threads[t] = Status::Trapped(reason),
        Ok(Next::On) => room[64 * t + 63] = pc + 4,
        Ok(Next::To(address)) => room[64 * t + 63] = address,
        Ok(Next::Ended) => {
            record.threads[t] = Status::Ended;
            room[64 * t + 63] = pc + 4;
        }
        Ok(Next::Meets(id, second)) => {
            if record.meet(t, id, second) {
                room[64 * t + 63] = pc + 4;
            }
        }
    }
    moved
}

/// "The first running thread after "last", going round upwards from 7 to 0", by its distance from "last"
fn chosen(record: &Record) -> Option<usize> {
    (1..=8).find(|k| record.threads[(record.last as usize + k) % 8] == Status::Running)
}

/// What a run reports: the answer, or a number of the table; the number of issues made; and how many entries were looked at.
pub type Report = (Result<Ending, u8>, u32, u64);

pub fn run(program: &[u32], room: &mut [u32], memory: &mut [u8], record: &mut Record, budget: u32) -> Report {
    run_seen(program, room, memory, record, budget, |_, _| ())
}

/// The same, and tells the thread of each issue and the vector that it moved.
pub fn run_seen(
    program: &[u32],
    room: &mut [u32],
    memory: &mut [u8],
    record: &mut Record,
    budget: u32,
    mut seen: impl FnMut(usize, Option<Moved>),
) -> Report {
    if program.is_empty() || program.len() > 16384 {
        return (Err(1), 0, 0);
    }
    if room.len() != ROOM_WORDS {
        return (Err(2), 0, 0);
    }
    if !memory_allowed(memory.len()) {
        return (Err(3), 0, 0);
    }
    if !record.well_formed() {
        return (Err(4), 0, 0);
    }
    let mut made = 0;
    let mut looks = 0;
    loop {
        let Some(distance) = chosen(record) else {
            // document 02, T-13: "for a search that finds none, 8"
            looks += 8;
            let waits = record.threads.iter().any(|s| matches!(s, Status::Waiting { .. }));
            return (Ok(if waits { Ending::Stuck } else { Ending::Stopped }), made, looks);
        };
        // "the final look before *spent* counts its distance too"
        looks += distance as u64;
        if made == budget {
            return (Ok(Ending::Spent), made, looks);
        }
        let t = (record.last as usize + distance) % 8;
        seen(t, issue(program, room, memory, record, t));
        made += 1;
    }
}

#[cfg(test)]
mod tests {
    use super::*;
    use crate::machine::{start, ZERO};

    fn room() -> Vec<u32> {
        vec![0; ROOM_WORDS]
    }

    /// "0xFFFFFFFF times itself: mullo 1, mulhi 0, mulhu 0xFFFFFFFE. .. cmplt 0xFFFFFFFF,0 is 1, cmpult 0."
    #[test]
    fn values() {
        let all = 0xFFFF_FFFF;
        assert_eq!((binary(6, all, all), binary(7, all, all), binary(8, all, all)), (1, 0, 0xFFFF_FFFE));
        assert_eq!(binary(9, 0x8000_0000, 33), 0xC000_0000);
        assert_eq!((unary(12, 1), unary(12, 0), unary(13, 0)), (31, 32, 32));
        assert!(compare(18, all, 0) && !compare(22, all, 0));
    }

    /// "0x62060000 movei s1", T-02: "becomes 0xFFFF8000." Also in lanes that are on, and of moveil and moveih not.
    #[test]
    fn immediates() {
        for (word, scalar) in [(0x62060000, 0xFFFF_8000), (0x6207FFFC, 0xFFFF_FFFF), (0x60060000, 0x1234_8000), (0x61060000, 0x8000_5678)] {
            let (mut room, mut memory) = (room(), vec![0; 64]);
            let mut record = start(1, &mut room).unwrap();
            (room[59], room[1]) = (5, 0x1234_5678);
            room[512 + 16..512 + 32].fill(0x1234_5678);
            assert_eq!(run(&[word, word | 2], &mut room, &mut memory, &mut record, 2), (Ok(Ending::Spent), 2, 1 + 8 + 8));
            assert_eq!((room[1], room[512 + 16], room[512 + 17], room[512 + 18]), (scalar, scalar, 0x1234_5678, scalar));
        }
    }

    /// "s59 = 5, v1[j] = j, s2 = 10, v3 all 7: add v3,v1,s2 gives 10 and 12 in lanes 0 and 2, else 7."
    #[test]
    fn masked_add() {
        let (mut room, mut memory) = (room(), vec![0; 64]);
        let mut record = start(1, &mut room).unwrap();
        (room[59], room[2]) = (5, 10);
        for j in 0..16 {
            (room[512 + 16 + j], room[512 + 48 + j]) = (j as u32, 7);
        }
        assert_eq!(run(&[0x040C108C], &mut room, &mut memory, &mut record, 1), (Ok(Ending::Spent), 1, 1 + 8));
        let mut expected = [7; 16];
        (expected[0], expected[2]) = (10, 12);
        assert_eq!(room[512 + 48..512 + 64], expected);
    }

    /// How thread 0 stands after one word, with 64 bytes of memory, so many in s1 and these lanes on.
    fn after(word: u32, base: u32, lanes: u32) -> Status {
        let (mut room, mut memory) = (room(), vec![0; 64]);
        let mut record = start(1, &mut room).unwrap();
        (room[1], room[59]) = (base, lanes);
        assert_eq!(run(&[word], &mut room, &mut memory, &mut record, 1).1, 1);
        record.threads[0]
    }

    /// "Memory 64, load32: address 60 good, 62 reason 1, 64 and -4 reason 2, base 0xFFFFFFFC plus 4 reason 2."
    #[test]
    fn addresses() {
        let load = |word, base| after(word, base, 0xFFFF);
        assert_eq!(load(0x82081000, 60), Status::Running);
        assert_eq!(load(0x82081000, 62), Status::Trapped(1));
        assert_eq!(load(0x82081000, 64), Status::Trapped(2));
        assert_eq!(load(0x82081FE0, 0), Status::Trapped(2));
        assert_eq!(load(0x82081020, 0xFFFF_FFFC), Status::Trapped(2));
    }

    /// Document 02, T-04: "in a 64-byte memory address 0 is good, 4 gives reason 2." Whatever lanes are on. 2 is no multiple of 4, -4 is one.
    #[test]
    fn vector_addresses() {
        for lanes in [0xFFFF, 1, 0] {
            for opcode in [0x8800_0000, 0xA800_0000] {
                let vector = |base, offset: u32| after(opcode | 0x0004_1000 | offset << 3 & 0xFFF, base, lanes);
                assert_eq!(vector(0, 0), Status::Running);
                assert_eq!(vector(4, 0), Status::Trapped(2));
                assert_eq!(vector(0, 4), Status::Trapped(2));
                assert_eq!(vector(2, 0), Status::Trapped(1));
                assert_eq!(vector(0, 4u32.wrapping_neg()), Status::Trapped(2));
                assert_eq!(vector(4, 4u32.wrapping_neg()), Status::Running);
            }
        }
    }

    /// Document 02, T-04: a vector stored over two blocks of 64 bytes, and one of another thread over a part of it.
    #[test]
    fn overlapping_vectors() {
        let (mut room, mut memory) = (room(), vec![0xEE; 192]);
        let mut record = start(3, &mut room).unwrap();
        (room[1], room[65]) = (44, 72);
        for j in 0..16 {
            (room[512 + 16 + j], room[512 + 1024 + 16 + j]) = (j as u32, 0x100 + j as u32);
        }
        room[64 + 59] = 0xFFFE;
        assert_eq!(run(&[0xA804_1000], &mut room, &mut memory, &mut record, 2), (Ok(Ending::Spent), 2, 1 + 1 + 7));
        let word = |at: usize| u32::from_le_bytes(memory[at..at + 4].try_into().unwrap());
        for at in (0..192).step_by(4) {
            let expected = match at {
                44..=72 => (at as u32 - 44) / 4,
                76..=132 => 0x100 + (at as u32 - 72) / 4,
                _ => 0xEEEE_EEEE,
            };
            assert_eq!(word(at), expected, "word at {at}");
        }
    }

    /// "0x70000000 alone, mask 7, budget 7: issues 0,1,2,0,1,2,0, spent. Budget 0: spent, 0." From 2 round to 0 it is 6; the last look finds 1.
    #[test]
    fn order() {
        let (mut room, mut memory) = (room(), vec![0; 64]);
        let mut record = start(7, &mut room).unwrap();
        let mut threads = vec![];
        let answer = run_seen(&[0x7000_0000], &mut room, &mut memory, &mut record, 7, |t, _| threads.push(t));
        assert_eq!(answer, (Ok(Ending::Spent), 7, (1 + 1 + 1) + (6 + 1 + 1) + 6 + 1));
        assert_eq!(threads, [0, 1, 2, 0, 1, 2, 0]);
        assert_eq!(run(&[0x7000_0000], &mut room, &mut memory, &mut record, 0), (Ok(Ending::Spent), 0, 1));
    }

    /// Document 02, T-05: "its issues since start, trapping ones too, wrapping at 2^32. readcr 16 gives the value before its own issue."
    /// Both threads: movei s2,16; readcr s1,s2; an undefined word.
    #[test]
    fn turns() {
        let (mut room, mut memory) = (room(), vec![0; 64]);
        let mut record = start(3, &mut room).unwrap();
        assert_eq!(record.turns, [0; 8]);
        record.turns[1] = 0xFFFF_FFFF;
        record.turns[2] = 9;
        assert_eq!(
            run(&[0x62080040, 0x79042000, 0], &mut room, &mut memory, &mut record, 5),
            (Ok(Ending::Spent), 5, (1 + 1) + (7 + 1) + 7 + 1)
        );
        assert_eq!(run(&[0x62080040, 0x79042000, 0], &mut room, &mut memory, &mut record, 5), (Ok(Ending::Stopped), 1, 1 + 8));
        assert_eq!((room[1], room[64 + 1]), (1, 0));
        assert_eq!(record.turns, [3, 2, 9, 0, 0, 0, 0, 0]);
    }

    /// Document 02, T-13: "the distance from "last" round to the thread chosen, 1 to 8; for a search that finds none, 8". Each thread ends.
    #[test]
    fn looks() {
        let cases = [(0xFF, 8, 8 * 1 + 8), (0x80, 1, 8 + 8), (0x11, 2, 1 + 4 + 8), (0x81, 2, 1 + 7 + 8)];
        for (mask, issues, looks) in cases {
            let (mut room, mut memory) = (room(), vec![0; 64]);
            let mut record = start(mask, &mut room).unwrap();
            assert_eq!(run(&[0x7A00_0000], &mut room, &mut memory, &mut record, 100), (Ok(Ending::Stopped), issues, looks), "mask {mask}");
            assert_eq!(run(&[0x7A00_0000], &mut room, &mut memory, &mut record, 0), (Ok(Ending::Stopped), 0, 8));
        }
    }

    /// "0x62040004, 0x78001000, 0x7A000000: budget 100: mask 3 stops after 6; mask 1 is stuck after 2."
    #[test]
    fn barrier() {
        for (mask, answer) in [(3, (Ok(Ending::Stopped), 6, (1 + 1) + (7 + 1) + (7 + 1) + 8)), (1, (Ok(Ending::Stuck), 2, 1 + 8 + 8))] {
            let (mut room, mut memory) = (room(), vec![0; 64]);
            let mut record = start(mask, &mut room).unwrap();
            assert_eq!(run(&[0x62040004, 0x78001000, 0x7A000000], &mut room, &mut memory, &mut record, 100), answer);
        }
    }

    /// The table's numbers, in their order.
    #[test]
    fn refusals() {
        let (mut room, mut memory, mut short) = (room(), vec![0; 64], vec![0; 8703]);
        let mut bad = ZERO;
        let long = vec![0; 16385];
        assert_eq!(run(&[], &mut short, &mut [], &mut bad, 9), (Err(1), 0, 0));
        assert_eq!(run(&long, &mut short, &mut [], &mut bad, 9), (Err(1), 0, 0));
        assert_eq!(run(&[0], &mut short, &mut [], &mut bad, 9), (Err(2), 0, 0));
        assert_eq!(run(&[0], &mut room, &mut [], &mut bad, 9), (Err(3), 0, 0));
        assert_eq!(run(&[0], &mut room, &mut [0; 96], &mut bad, 9), (Err(3), 0, 0));
        assert_eq!(run(&[0], &mut room, &mut memory, &mut bad, 9), (Err(4), 0, 0));
        assert_eq!((start(0, &mut short), start(0, &mut room), start(256, &mut room)), (Err(2), Err(5), Err(5)));
    }
}
