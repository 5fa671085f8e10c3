//! Words read, named and written: every upper half word, and every instruction at the edges of its fields.

use crate::library;
use compare::report::Tally;
use reference::word::{self, Instruction, Reading};

/// An instruction as the header's six numbers.
fn numbers(instruction: Instruction) -> [u32; 6] {
    match instruction {
        Instruction::R { opcode, flags, d, a, b } => [0, opcode as u32, flags as u32, d as u32, a as u32, b as u32],
        Instruction::I { opcode, flags, d, a, immediate } => [1, opcode as u32, flags as u32, d as u32, a as u32, immediate as u32],
        Instruction::Movei { opcode, flag, d, immediate } => [2, opcode as u32, flag as u32, d as u32, immediate as u32, 0],
        Instruction::J { opcode, register, offset } => [3, opcode as u32, 0, register as u32, offset as u32, 0],
        Instruction::C { opcode, first, second } => [4, opcode as u32, 0, first as u32, second as u32, 0],
        Instruction::M { opcode, register, base, offset } => [5, opcode as u32, 0, register as u32, base as u32, offset as u32],
    }
}

/// The instruction that six numbers name, if the second program's type can hold them.
fn named(n: [u32; 6]) -> Option<Instruction> {
    let byte = |x: u32| u8::try_from(x).ok();
    let opcode = byte(n[1])?;
    let empty = |places: &[u32]| places.iter().all(|x| *x == 0).then_some(());
    Some(match n[0] {
        0 => Instruction::R { opcode, flags: byte(n[2])?, d: byte(n[3])?, a: byte(n[4])?, b: byte(n[5])? },
        1 => Instruction::I { opcode, flags: byte(n[2])?, d: byte(n[3])?, a: byte(n[4])?, immediate: n[5] as i32 },
        2 => {
            empty(&[n[5]])?;
            Instruction::Movei { opcode, flag: byte(n[2])?, d: byte(n[3])?, immediate: n[4] as i32 }
        }
        3 => {
            empty(&[n[2], n[5]])?;
            Instruction::J { opcode, register: byte(n[3])?, offset: n[4] as i32 }
        }
        4 => {
            empty(&[n[2], n[5]])?;
            Instruction::C { opcode, first: byte(n[3])?, second: byte(n[4])? }
        }
        5 => {
            empty(&[n[2]])?;
            Instruction::M { opcode, register: byte(n[3])?, base: byte(n[4])?, offset: n[5] as i32 }
        }
        _ => return None,
    })
}

/// A word read on both sides; one that reads is named and written again on both.
fn both_ways(w: u32, tally: &mut Tally) {
    tally.show(&[w]);
    let mut found = [9; 6];
    let number = library::read_word(w, &mut found);
    match word::read(w) {
        Reading::Defined(i) => {
            assert_eq!((number, found), (0, numbers(i)), "word {w:08X}");
            assert_eq!(library::name(&found), Some(word::name(i).into_bytes()), "name of {w:08X}");
            let mut again = 0;
            assert_eq!((library::write_word(&found, &mut again), again), (0, w), "word {w:08X} written again");
            assert_eq!(word::write(i), Some(w), "word {w:08X} written again by the second program");
        }
        Reading::Undefined => assert_eq!((number, found), (7, [9; 6]), "word {w:08X}"),
        Reading::NotFitted => assert_eq!((number, found), (8, [9; 6]), "word {w:08X}"),
    }
    tally.met(number);
}

/// An upper half word, with all values of bits 5 to 0 and, between them, no bit, all bits, and each bit of 15 to 6 by itself.
pub fn reading(upper: u64, tally: &mut Tally) {
    let middles = [0, 0x3FF].into_iter().chain((0..10).map(|k| 1 << k));
    for middle in middles {
        for low in 0..64 {
            both_ways((upper as u32) << 16 | middle << 6 | low, tally);
        }
    }
}

/// An upper half word, with every lower half.
pub fn reading_all(upper: u64, tally: &mut Tally) {
    for lower in 0..=0xFFFF {
        both_ways((upper as u32) << 16 | lower, tally);
    }
}

const MOST: u32 = u32::MAX;
/// Opcodes and flags: all that a field can hold, and numbers that it can't.
const TOO_LARGE: [u32; 5] = [64, 256, 257, 1 << 31, MOST];
/// The edges of a field, by what it holds: a register, nothing, a signed immediate, a half word, signed or not, a signed offset.
const REGISTER: &[u32] = &[0, 1, 32, 62, 63, 64, 127, 256, 1 << 31, MOST];
const NOTHING: &[u32] = &[0, 1, 256, 1 << 31];
const IMMEDIATE: &[u32] = &[0, 1, 255, 256, 511, 512, 1 << 31, MOST - 256, MOST - 255, MOST - 254, MOST];
const HALF: &[u32] = &[0, 1, 0x7FFF, 0x8000, 0xFFFF, 0x1_0000, 1 << 31, MOST - 0x8000, MOST - 0x7FFF, MOST];
const OFFSET: &[u32] =
    &[0, 1, 4, 0xFFFF, 0x1_0000, 0x1_FFFF, 0x2_0000, 0x3_FFFF, 0x4_0000, 1 << 31, MOST - 0x2_0000, MOST - 0x1_FFFF, MOST - 0x1_FFFE, MOST];

pub const FORMATS: u64 = 8;
pub const OPCODES: u64 = 64 + TOO_LARGE.len() as u64;

/// Seed by seed every format (and two that there are not) and every opcode: with every flags and every edge of each field.
pub fn writing(seed: u64, tally: &mut Tally) {
    let (format, nth) = ((seed / OPCODES) as u32, (seed % OPCODES) as usize);
    let opcode = if nth < 64 { nth as u32 } else { TOO_LARGE[nth - 64] };
    let fields = match format {
        0 => [REGISTER, REGISTER, REGISTER],
        1 | 5 => [REGISTER, REGISTER, IMMEDIATE],
        2 => [REGISTER, HALF, NOTHING],
        3 => [REGISTER, OFFSET, NOTHING],
        4 => [REGISTER, REGISTER, NOTHING],
        _ => [NOTHING; 3],
    };
    for flags in (0..=8).chain(TOO_LARGE) {
        for d in fields[0] {
            for a in fields[1] {
                for b in fields[2] {
                    written([format, opcode, flags, *d, *a, *b], tally);
                }
            }
        }
    }
}

/// Six numbers, which may name no instruction, or one without a word, written on both sides.
fn written(n: [u32; 6], tally: &mut Tally) {
    let mut found = 77;
    let number = library::write_word(&n, &mut found);
    let instruction = named(n);
    match instruction.and_then(word::write) {
        Some(w) => {
            assert_eq!((number, found), (0, w), "{n:?}");
            assert_eq!(library::name(&n), instruction.map(|i| word::name(i).into_bytes()), "name of {n:?}");
        }
        None => {
            assert_eq!((number, found), (6, 77), "{n:?}");
            assert_eq!(library::name(&n), None, "name of {n:?}");
        }
    }
    tally.met(number);
}
