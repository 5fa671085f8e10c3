//! Instruction words, read and written (document 01, "The words"; document 02, T-02 and T-08).

/// An instruction as a line of the paper has it, opcodes as the paper numbers them. Its fields may hold what no word has room for.
#[derive(Clone, Copy, PartialEq, Eq, Debug)]
pub enum Instruction {
    R { opcode: u8, flags: u8, d: u8, a: u8, b: u8 },
    I { opcode: u8, flags: u8, d: u8, a: u8, immediate: i32 },
    Movei { opcode: u8, flag: u8, d: u8, immediate: i32 },
    J { opcode: u8, register: u8, offset: i32 },
    C { opcode: u8, first: u8, second: u8 },
    M { opcode: u8, register: u8, base: u8, offset: i32 },
}

#[derive(Clone, Copy, PartialEq, Eq, Debug)]
pub enum Reading {
    Defined(Instruction),
    Undefined,
    NotFitted,
}

/// The bits of a word from `high` down to `low`.
fn bits(word: u32, high: u32, low: u32) -> u32 {
    (word >> low) & (u32::MAX >> (31 - (high - low)))
}

/// The same as a signed number.
fn signed_bits(word: u32, high: u32, low: u32) -> i32 {
    let width = high - low + 1;
    ((bits(word, high, low) << (32 - width)) as i32) >> (32 - width)
}

/// "1 or, 2 and, .. 11 shl."; T-08: "33 to 36 (fadd, fsub, fmul, fdiv)"
pub fn is_binary(opcode: u8) -> bool {
    matches!(opcode, 1..=11 | 33..=36)
}

/// "12 clz, 13 ctz .., 32 move, 43 sext8, 44 sext16"; T-08: "48 i32tof32 and 49 f32toi32"
pub fn is_unary(opcode: u8) -> bool {
    matches!(opcode, 12 | 13 | 32 | 43 | 44 | 48 | 49)
}

/// "14 cmpeq, .. 23 cmpule"; T-08: "compares 37 to 42"
pub fn is_compare(opcode: u8) -> bool {
    matches!(opcode, 14..=23 | 37..=42)
}

const SHUFFLE: u8 = 24;
const GETLANE: u8 = 25;

fn has_r_line(opcode: u8) -> bool {
    is_binary(opcode) || is_unary(opcode) || is_compare(opcode) || opcode == SHUFFLE || opcode == GETLANE
}

fn r_flags_listed(opcode: u8, flags: u8) -> bool {
    if is_binary(opcode) {
        matches!(flags, 0b000 | 0b111 | 0b110 | 0b101)
    } else if opcode == 32 {
        matches!(flags, 0b000 | 0b110 | 0b100)
    } else if is_unary(opcode) {
        matches!(flags, 0b000 | 0b110)
    } else if is_compare(opcode) {
        matches!(flags, 0b000 | 0b011 | 0b010 | 0b001)
    } else if opcode == SHUFFLE {
        flags == 0b111
    } else {
        opcode == GETLANE && flags == 0b010
    }
}

fn i_flags_listed(opcode: u8, flags: u8) -> bool {
    if is_binary(opcode) {
        matches!(flags, 0b00 | 0b11)
    } else if is_compare(opcode) {
        matches!(flags, 0b00 | 0b01)
    } else {
        opcode == GETLANE && flags == 0b01
    }
}

fn defined_if(fine: bool, instruction: Instruction) -> Reading {
    if fine {
        Reading::Defined(instruction)
    } else {
        Reading::Undefined
    }
}

fn read_r(w: u32) -> Reading {
    let opcode = bits(w, 29, 24) as u8;
    // of document 01's list only this one is left: T-08 fits the others
    if opcode == 45 {
        return Reading::NotFitted;
    }
    if !has_r_line(opcode) {
        return Reading::Undefined;
    }
    if bits(w, 4, 4) == 1 {
        return Reading::NotFitted;
    }
    let flags = bits(w, 3, 1) as u8;
    let d = bits(w, 23, 18) as u8;
    let b = bits(w, 11, 6) as u8;
    let fine = bits(w, 5, 5) == 0
        && bits(w, 0, 0) == 0
        && r_flags_listed(opcode, flags)
        && !(flags < 4 && d == 63)
        && !(is_unary(opcode) && b != 0);
    defined_if(fine, Instruction::R { opcode, flags, d, a: bits(w, 17, 12) as u8, b })
}

fn read_i(w: u32) -> Reading {
    let opcode = bits(w, 28, 24) as u8;
    let flags = bits(w, 2, 1) as u8;
    let d = bits(w, 23, 18) as u8;
    let fine = bits(w, 0, 0) == 0 && i_flags_listed(opcode, flags) && !(flags < 2 && d == 63);
    defined_if(fine, Instruction::I { opcode, flags, d, a: bits(w, 17, 12) as u8, immediate: signed_bits(w, 11, 3) })
}

fn read_movei(w: u32) -> Reading {
    let opcode = bits(w, 26, 24) as u8;
    let flag = bits(w, 1, 1) as u8;
    let d = bits(w, 23, 18) as u8;
    let fine = bits(w, 0, 0) == 0 && opcode <= 2 && !(flag == 0 && d == 63);
    // T-02: "From now on movei extends the sign into the high half. .. the other two stay."
    let immediate = if opcode == 2 { signed_bits(w, 17, 2) } else { bits(w, 17, 2) as i32 };
    defined_if(fine, Instruction::Movei { opcode, flag, d, immediate })
}

fn read_j(w: u32) -> Reading {
    let opcode = bits(w, 26, 24) as u8;
    let register = bits(w, 23, 18) as u8;
    let offset = signed_bits(w, 17, 0);
    let fine = match opcode {
        0 | 1 => register == 0,
        2 => register == 0 && offset == 0,
        5 | 6 => true,
        _ => false,
    };
    defined_if(fine, Instruction::J { opcode, register, offset })
}

fn read_c(w: u32) -> Reading {
    let opcode = bits(w, 26, 24) as u8;
    let first = bits(w, 23, 18) as u8;
    let second = bits(w, 17, 12) as u8;
    let fine = bits(w, 11, 0) == 0
        && match opcode {
            0 => true,
            1 => first != 63,
            2 => first == 0 && second == 0,
            _ => false,
        };
    defined_if(fine, Instruction::C { opcode, first, second })
}

fn read_m(w: u32) -> Reading {
    let opcode = bits(w, 29, 24) as u8;
    let is_scalar_load = matches!(opcode, 0 | 1 | 2 | 4 | 5);
    if !is_scalar_load && !matches!(opcode, 8 | 32 | 33 | 34 | 40) {
        return Reading::Undefined;
    }
    if bits(w, 2, 1) != 0 {
        return Reading::NotFitted;
    }
    let register = bits(w, 23, 18) as u8;
    let fine = bits(w, 0, 0) == 0 && !(is_scalar_load && register == 63);
    defined_if(fine, Instruction::M { opcode, register, base: bits(w, 17, 12) as u8, offset: signed_bits(w, 11, 3) })
}

pub fn read(w: u32) -> Reading {
    if bits(w, 31, 30) == 0b00 {
        read_r(w)
    } else if bits(w, 31, 29) == 0b010 {
        read_i(w)
    } else if bits(w, 31, 27) == 0b01100 {
        read_movei(w)
    } else if bits(w, 31, 27) == 0b01110 {
        read_j(w)
    } else if bits(w, 31, 27) == 0b01111 {
        read_c(w)
    } else if bits(w, 31, 30) == 0b10 {
        read_m(w)
    } else {
        Reading::Undefined
    }
}

/// The fields put in their places, whatever they hold.
fn laid_out(instruction: Instruction) -> u32 {
    let at = |value: u32, low: u32, width: u32| (value & ((1 << width) - 1)) << low;
    match instruction {
        Instruction::R { opcode, flags, d, a, b } => {
            at(opcode as u32, 24, 6) | at(d as u32, 18, 6) | at(a as u32, 12, 6) | at(b as u32, 6, 6) | at(flags as u32, 1, 3)
        }
        Instruction::I { opcode, flags, d, a, immediate } => {
            0b010 << 29
                | at(opcode as u32, 24, 5)
                | at(d as u32, 18, 6)
                | at(a as u32, 12, 6)
                | at(immediate as u32, 3, 9)
                | at(flags as u32, 1, 2)
        }
        Instruction::Movei { opcode, flag, d, immediate } => {
            0b01100 << 27 | at(opcode as u32, 24, 3) | at(d as u32, 18, 6) | at(immediate as u32, 2, 16) | at(flag as u32, 1, 1)
        }
        Instruction::J { opcode, register, offset } => {
            0b01110 << 27 | at(opcode as u32, 24, 3) | at(register as u32, 18, 6) | at(offset as u32, 0, 18)
        }
        Instruction::C { opcode, first, second } => {
            0b01111 << 27 | at(opcode as u32, 24, 3) | at(first as u32, 18, 6) | at(second as u32, 12, 6)
        }
        Instruction::M { opcode, register, base, offset } => {
            0b10 << 30 | at(opcode as u32, 24, 6) | at(register as u32, 18, 6) | at(base as u32, 12, 6) | at(offset as u32, 3, 9)
        }
    }
}

/// The word of an instruction, if it has one: the word that is read as it again.
pub fn write(instruction: Instruction) -> Option<u32> {
    let w = laid_out(instruction);
    if read(w) == Reading::Defined(instruction) {
        Some(w)
    } else {
        None
    }
}

/// The name that the paper gives an instruction.
pub fn name(instruction: Instruction) -> String {
    let r_name = |opcode: u8| match opcode {
        1 => "or",
        2 => "and",
        3 => "xor",
        4 => "add",
        5 => "sub",
        6 => "mullo",
        7 => "mulhi",
        8 => "mulhu",
        9 => "ashr",
        10 => "shr",
        11 => "shl",
        12 => "clz",
        13 => "ctz",
        14 => "cmpeq",
        15 => "cmpne",
        16 => "cmpgt",
        17 => "cmpge",
        18 => "cmplt",
        19 => "cmple",
        20 => "cmpugt",
        21 => "cmpuge",
        22 => "cmpult",
        23 => "cmpule",
        24 => "shuffle",
        25 => "getlane",
        32 => "move",
        33 => "fadd",
        34 => "fsub",
        35 => "fmul",
        36 => "fdiv",
        37 => "cmpfeq",
        38 => "cmpfne",
        39 => "cmpfgt",
        40 => "cmpfge",
        41 => "cmpflt",
        42 => "cmpfle",
        43 => "sext8",
        44 => "sext16",
        48 => "i32tof32",
        49 => "f32toi32",
        _ => unreachable!("no such line"),
    };
    match instruction {
        Instruction::R { opcode, .. } => r_name(opcode).to_string(),
        Instruction::I { opcode, .. } => r_name(opcode).to_string() + "i",
        Instruction::Movei { opcode, .. } => ["moveil", "moveih", "movei"][opcode as usize].to_string(),
        Instruction::J { opcode, .. } => ["jmp", "jmpsr", "jret", "", "", "beqz", "bnez"][opcode as usize].to_string(),
        Instruction::C { opcode, .. } => ["barrier", "readcr", "end"][opcode as usize].to_string(),
        Instruction::M { opcode, .. } => match opcode {
            0 => "load8",
            1 => "load16",
            2 => "load32",
            4 => "load8u",
            5 => "load16u",
            8 => "loadv",
            32 => "store8",
            33 => "store16",
            34 => "store32",
            40 => "storev",
            _ => unreachable!("no such line"),
        }
        .to_string(),
    }
}

#[cfg(test)]
mod tests {
    use super::*;

    /// "0x040C1080 is add s3,s1,s2; .." T-02: "the case 0x62060000 becomes 0xFFFF8000." T-08: "the word 0x21000000
    /// becomes fadd .. 0x2D000000 takes its place as not fitted .. words of these opcodes off the layout give 7, not 8; l = 1 still gives 8"
    #[test]
    fn figures() {
        let defined = |w, i| {
            assert_eq!(read(w), Reading::Defined(i));
            assert_eq!(write(i), Some(w));
        };
        defined(0x040C1080, Instruction::R { opcode: 4, flags: 0b000, d: 3, a: 1, b: 2 });
        defined(0x040C108E, Instruction::R { opcode: 4, flags: 0b111, d: 3, a: 1, b: 2 });
        defined(0x12EC1086, Instruction::R { opcode: 18, flags: 0b011, d: 59, a: 1, b: 2 });
        defined(0x44041FF8, Instruction::I { opcode: 4, flags: 0b00, d: 1, a: 1, immediate: -1 });
        defined(0x62060000, Instruction::Movei { opcode: 2, flag: 0, d: 1, immediate: -0x8000 });
        defined(0x82081000, Instruction::M { opcode: 2, register: 2, base: 1, offset: 0 });
        assert_eq!(read(0x00000000), Reading::Undefined);
        assert_eq!(read(0x04FC0000), Reading::Undefined);
        defined(0x21000000, Instruction::R { opcode: 33, flags: 0b000, d: 0, a: 0, b: 0 });
        assert_eq!(read(0x2D000000), Reading::NotFitted);
        assert_eq!(read(0x2D000001), Reading::NotFitted);
        assert_eq!(read(0x21000001), Reading::Undefined);
        assert_eq!(read(0x21000010), Reading::NotFitted);
        assert_eq!(read(0x30000040), Reading::Undefined);
    }

    /// "6: instruction to be written has no word"
    #[test]
    fn no_word() {
        assert_eq!(write(Instruction::R { opcode: 4, flags: 0, d: 63, a: 0, b: 0 }), None);
        assert_eq!(write(Instruction::R { opcode: 4, flags: 0, d: 64, a: 0, b: 0 }), None);
        assert_eq!(write(Instruction::R { opcode: 12, flags: 0, d: 1, a: 0, b: 1 }), None);
        assert_eq!(write(Instruction::I { opcode: 4, flags: 0, d: 1, a: 0, immediate: 256 }), None);
        assert_eq!(write(Instruction::I { opcode: 33, flags: 0, d: 1, a: 0, immediate: 0 }), None);
        assert_eq!(write(Instruction::J { opcode: 0, register: 1, offset: 0 }), None);
        assert_eq!(write(Instruction::C { opcode: 2, first: 1, second: 0 }), None);
    }

    /// T-02: "In writing it runs from -32,768 to 32,767; the other two stay."
    #[test]
    fn half_words() {
        let has_word = |opcode, immediate| write(Instruction::Movei { opcode, flag: 0, d: 1, immediate }).is_some();
        for (opcode, least, most) in [(0, 0, 65_535), (1, 0, 65_535), (2, -32_768, 32_767)] {
            assert!(has_word(opcode, least) && has_word(opcode, most));
            assert!(!has_word(opcode, least - 1) && !has_word(opcode, most + 1));
        }
    }

    /// Every word that is read is written again, on a spread of words.
    #[test]
    fn both_ways() {
        for upper in 0..=0xFFFFu32 {
            for lower in [0x0000, 0x1080, 0x108E, 0x0002, 0x0FF8, 0xFFFC, 0x8004] {
                if let Reading::Defined(i) = read(upper << 16 | lower) {
                    assert_eq!(write(i), Some(upper << 16 | lower));
                }
            }
        }
    }
}
