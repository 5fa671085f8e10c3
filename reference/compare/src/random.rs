//! Random programs, by fixed seeds: biased to words that are read, to registers that matter and to addresses near the ends.

use reference::word::{write, Instruction};

/// The first of four registers that hold addresses, and of four that hold small numbers, of barriers and control registers.
pub const ADDRESSES: u8 = 6;
pub const NUMBERS: u8 = 10;

/// A small generator (xorshift64*): the same numbers for the same seed on every machine.
pub struct Random(u64);

impl Random {
    pub fn new(seed: u64) -> Random {
        let mut random = Random(seed.wrapping_mul(0x9E37_79B9_7F4A_7C15) | 1);
        for _ in 0..4 {
            random.word();
        }
        random
    }

    pub fn word(&mut self) -> u64 {
        self.0 ^= self.0 << 13;
        self.0 ^= self.0 >> 7;
        self.0 ^= self.0 << 17;
        self.0.wrapping_mul(0x2545_F491_4F6C_DD1D)
    }

    pub fn below(&mut self, n: u64) -> u64 {
        (self.word() >> 11) % n
    }

    pub fn one_in(&mut self, n: u64) -> bool {
        self.below(n) == 0
    }

    pub fn of<T: Copy>(&mut self, list: &[T]) -> T {
        list[self.below(list.len() as u64) as usize]
    }

    /// A register: mostly one of the first six, at times the mask, the link or the program counter.
    fn register(&mut self) -> u8 {
        match self.below(10) {
            0 => 59,
            1 => 62,
            2 => 63,
            3 => self.below(64) as u8,
            _ => self.below(6) as u8,
        }
    }

    /// A register from `first` on, four of which `Pair::started` gives values of one use; at times any other.
    fn register_of_use(&mut self, first: u8) -> u8 {
        if self.one_in(5) {
            self.register()
        } else {
            first + self.below(4) as u8
        }
    }

    fn r(&mut self) -> Instruction {
        let opcode = match self.below(40) as u8 + 1 {
            n @ 1..=25 => n,
            n @ 26..=38 => n + 6,
            n => n + 9,
        };
        let is_unary = matches!(opcode, 12 | 13 | 32 | 43 | 44 | 48 | 49);
        let flags = match opcode {
            1..=11 | 33..=36 => self.of(&[0b000, 0b111, 0b110, 0b101]),
            14..=23 | 37..=42 => self.of(&[0b000, 0b011, 0b010, 0b001]),
            24 => 0b111,
            25 => 0b010,
            32 => self.of(&[0b000, 0b110, 0b100]),
            _ => self.of(&[0b000, 0b110]),
        };
        let (d, a) = (self.register(), self.register());
        let b = if is_unary { 0 } else { self.register() };
        Instruction::R { opcode, flags, d, a, b }
    }

    /// A float: zero, subnormal, near one, near what a whole number holds, large, infinite or a NaN, with few digits, all, or any.
    pub fn float(&mut self) -> u32 {
        let any = self.below(256) as u32;
        let exponent =
            self.of(&[0, 0, 1, 2, 23, 24, 25, 103, 104, 126, 127, 128, 149, 150, 151, 157, 158, 159, 252, 253, 254, 255, any, any]);
        let any = self.below(1 << 23) as u32;
        let digits = self.of(&[0, 0, 1, 2, 3, 0x3F_FFFF, 0x40_0000, 0x40_0001, 0x7F_FFFD, 0x7F_FFFE, 0x7F_FFFF, any, any, any]);
        (self.below(2) as u32) << 31 | exponent << 23 | digits
    }

    fn i(&mut self) -> Instruction {
        let opcode = self.of(&[1, 2, 3, 4, 5, 6, 7, 8, 9, 10, 11, 14, 15, 16, 17, 18, 19, 20, 21, 22, 23, 25]);
        let flags = match opcode {
            1..=11 => self.of(&[0b00, 0b11]),
            25 => 0b01,
            _ => self.of(&[0b00, 0b01]),
        };
        Instruction::I { opcode, flags, d: self.register(), a: self.register(), immediate: self.below(512) as i32 - 256 }
    }

    fn movei(&mut self) -> Instruction {
        let most = self.of(&[16, 65536]);
        let (opcode, flag, d, n) = (self.below(3) as u8, self.below(2) as u8, self.register(), self.below(most));
        let immediate = if opcode == 2 { n as i16 as i32 } else { n as i32 };
        Instruction::Movei { opcode, flag, d, immediate }
    }

    /// A place that a jump or a program counter may be at: mostly a word of the program, often one near `at`, at times a byte that is none.
    pub fn place(&mut self, words: u64, at: u64) -> i64 {
        let end = 4 * words as i64;
        match self.below(16) {
            0 => self.of(&[-8, -4, -2, -1, 1, 2, 3, 65_532, 65_536, 65_540]),
            1 => end + self.of(&[-4, -3, -2, -1, 0, 1, 2, 3, 4]),
            2 => self.below(4 * words) as i64,
            3..=8 => 4 * (at + self.below(16)).saturating_sub(8).min(words - 1) as i64,
            _ => 4 * self.below(words) as i64,
        }
    }

    /// A jump from word `at`.
    fn j(&mut self, words: u64, at: u64) -> Instruction {
        let opcode = self.of(&[0, 1, 2, 5, 6, 5, 6]);
        let far = self.of(&[-131_072, -131_068, 131_068, 131_071]);
        let near = self.place(words, at) as i32 - 4 * at as i32;
        let register = if opcode >= 5 { self.register() } else { 0 };
        let offset = if opcode == 2 {
            0
        } else if self.one_in(50) {
            far
        } else {
            near
        };
        Instruction::J { opcode, register, offset }
    }

    fn c(&mut self) -> Instruction {
        match self.below(9) {
            0 => Instruction::C { opcode: 2, first: 0, second: 0 },
            n if n % 2 == 0 => Instruction::C { opcode: 0, first: self.register_of_use(NUMBERS), second: self.register_of_use(NUMBERS) },
            _ => Instruction::C { opcode: 1, first: self.register(), second: self.register_of_use(NUMBERS) },
        }
    }

    fn m(&mut self) -> Instruction {
        let opcode = self.of(&[0, 1, 2, 4, 5, 8, 32, 33, 34, 40]);
        let offset = match self.below(8) {
            0 => self.below(512) as i32 - 256,
            1 => 4 * (self.below(128) as i32 - 64),
            2..=3 => 64 * (self.below(8) as i32 - 4),
            _ => 0,
        };
        Instruction::M { opcode, register: self.register(), base: self.register_of_use(ADDRESSES), offset }
    }

    /// The word at place `at` of a program of so many words: nearly always one that is read.
    fn instruction_word(&mut self, words: u64, at: u64) -> u32 {
        if self.one_in(200) {
            return self.word() as u32;
        }
        loop {
            let instruction = match self.below(20) {
                0..=6 => self.r(),
                7..=9 => self.i(),
                10..=11 => self.movei(),
                12..=14 => self.j(words, at),
                15..=16 => self.c(),
                _ => self.m(),
            };
            if let Some(word) = write(instruction) {
                return word;
            }
        }
    }

    /// A program: mostly of some words; at times a long one, whose first words repeat and whose last are made as those of a short one.
    pub fn program(&mut self) -> Vec<u32> {
        let any = 1 + self.below(16384);
        let words = if self.one_in(25) { self.of(&[16384, 16384, 16383, any]) } else { 1 + self.below(40) };
        let fresh = words.min(60);
        let block: Vec<u32> = (0..fresh).map(|at| self.instruction_word(words, at)).collect();
        let mut program: Vec<u32> = block.into_iter().cycle().take((words - fresh) as usize).collect();
        program.extend((words - fresh..words).map(|at| self.instruction_word(words, at)));
        if self.one_in(2) {
            // so that a program is not left at its end
            let offset = -4 * self.below(fresh) as i32;
            program[words as usize - 1] = write(Instruction::J { opcode: 0, register: 0, offset }).expect("a word");
        }
        for _ in 0..self.below(3) {
            let part = self.part();
            if part.len() <= fresh as usize {
                let at = program.len() - part.len() - self.below(fresh - part.len() as u64 + 1) as usize;
                program[at..at + part.len()].copy_from_slice(&part);
            }
        }
        program
    }

    /// A program counter: mostly that of one of the last words.
    pub fn counter(&mut self, words: usize) -> u32 {
        let last = words as u64 - 1;
        let at = last.saturating_sub(self.below(40));
        if self.one_in(12) {
            self.word() as u32
        } else {
            self.place(words as u64, at) as u32
        }
    }

    /// Words that belong together: a barrier, where counts agree or go by the thread; a mask; a shuffle onto its own operands.
    fn part(&mut self) -> Vec<u32> {
        let movei = |d, immediate| Instruction::Movei { opcode: 2, flag: 0, d, immediate };
        let part = match self.below(3) {
            0 => {
                let count = if self.one_in(3) {
                    Instruction::C { opcode: 1, first: 2, second: 3 }
                } else {
                    movei(2, self.of(&[0, 1, 1, 2, 3, 7, 8]))
                };
                let id = self.of(&[0, 1, 31, 32]);
                vec![movei(3, 2), movei(1, id), count, Instruction::C { opcode: 0, first: 1, second: 2 }]
            }
            1 => vec![movei(59, self.below(65536) as i16 as i32)],
            _ => {
                let d = self.below(3) as u8;
                let other = self.below(3) as u8;
                let (a, b) = self.of(&[(d, other), (other, d), (d, d)]);
                vec![Instruction::R { opcode: 24, flags: 0b111, d, a, b }]
            }
        };
        part.into_iter().map(|i| write(i).expect("a word")).collect()
    }

    /// An address such as programs use: of a block, a byte of memory, or most often a word, where the vectors of two threads overlap.
    pub fn address(&mut self, memory: usize) -> u32 {
        let step = self.of(&[64, 64, 4, 4, 4, 1]);
        step * self.below(memory as u64 / step as u64) as u32
    }

    /// A count of turns: none, some, one that soon wraps, or any.
    pub fn turns(&mut self) -> u32 {
        match self.below(4) {
            0 => 0,
            1 => self.below(1000) as u32,
            2 => u32::MAX - self.below(50) as u32,
            _ => self.word() as u32,
        }
    }

    /// A number such as programs use: small, aligned, an address near the memory's end, a float, or anything.
    pub fn value(&mut self, memory: usize) -> u32 {
        match self.below(7) {
            0 => self.below(10) as u32,
            1 => 4 * self.below(64) as u32,
            2 => 64 * self.below(8) as u32,
            3 => self.below(memory as u64 + 16) as u32,
            4 => (memory as u32).wrapping_sub(self.below(80) as u32),
            5 => self.float(),
            _ => self.word() as u32,
        }
    }
}
